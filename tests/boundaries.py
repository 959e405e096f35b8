"""Requests at the values where the documents' rules draw their limits.

CASES has (what is tried, name of the request, argument words, how the answer
line begins), reckoned by hand. They are the rows of the two tables in
crates/operations/proofs/Cases.antt, as far as an entry answers them, and the
half of an odd a; most are drawings that a caller made up. Where a row names no
finest level it is 11.
"""
from document_cases import FINEST, drawing
from makers import LIMITS
from model.constants import LEAST, MOST
from model.points import flat
from probe_model import OPERATION_NAMES
from probe_protocol import START_NAMES, line

HALVE, DOUBLE, STEP = 0, 1, 2


def chosen(what, operation, level, q, b, c, c_of_y, limits=LIMITS,
           of_width=(0, 0), finest=FINEST):
    """x has the registers b and c, y has c, the width b and c."""
    words = drawing(level, q, 0, b, c, 0, 0, 0, c_of_y, 0, 0, *of_width,
                    finest=finest)
    return what, "next", [*words, *limits], line([0, operation])


def chosen_past_width(what, operation, c, *of_width):
    """At level 1, x has the register c, y is at rest, the width moves."""
    return chosen(what, operation, 1, 0, 0, c, 0, LIMITS, of_width)


def refused_choice(what, refusal, level, q, limits=LIMITS, finest=FINEST):
    words = drawing(level, q, finest=finest)
    return what, "next", [*words, *limits], line([refusal, 0])


def operated(what, name, refusal, level, q, *registers, finest=FINEST):
    words = drawing(level, q, *registers, finest=finest)
    return what, name, words, line([refusal, ""])


def operated_width(what, name, refusal, level, *registers):
    """The width has these registers, x and y are at rest."""
    return operated(what, name, refusal, level, 0, *AT_REST, *AT_REST,
                    *registers)


def started(what, refusal, ys, level, widths=(0, 0, 0, 0), finest=FINEST):
    """Of four points a cubic, of three a quadratic."""
    points = flat([0, y, width] for y, width in zip(ys, widths))
    name = START_NAMES[len(ys) - 1]
    return what, name, [*points, finest, level], line([refusal, ""])


AT_REST = [0, 0, 0, 0]
OUTSIDE = [MOST, LEAST, 0, 0]
HUGE = 134_219_776      # its increment is past upper at every level

CASES = [
    chosen("1: equal to upper", STEP, 1, 0, 0, 131_073, 0),
    chosen("1: larger in x", HALVE, 1, 0, 0, 131_074, 0),
    chosen("1: equal below 0", STEP, 1, 0, 0, -131_072, 0),
    chosen("1: larger by the floor", HALVE, 1, 0, 0, -131_073, 0),
    chosen("1: larger in y", HALVE, 1, 0, 0, 0, 131_074),
    chosen("1: level 10", HALVE, 10, 0, 0, 67_109_888, 0),
    chosen("1: level 11", STEP, 11, 0, 0, 134_219_776, 0),
    chosen("2: both smaller than lower", DOUBLE, 1, 0, 0, 65_535, 65_535),
    chosen("2: x equal to lower", STEP, 1, 0, 0, 65_536, 0),
    chosen("2: y equal to lower", STEP, 1, 0, 0, 0, 65_536),
    chosen("2: lower 0", STEP, 1, 0, 0, 0, 0, [65_536, 0]),
    chosen("2: limits 1 and 1", DOUBLE, 1, 0, 0, 0, 0, [1, 1]),
    chosen("2: level 0", STEP, 0, 0, 0, 0, 0),
    chosen("2: a multiple of 2s", DOUBLE, 2, 1_024, 0, 0, 0),
    chosen("2: no multiple of 2s", STEP, 2, 512, 0, 0, 0),
    chosen("2: doubled, equal to upper", DOUBLE, 1, 0, 4, 65_535, 0),
    chosen("2: doubled, larger", STEP, 1, 0, 8, 65_535, 0),
    chosen("2: doubled, by its floors", DOUBLE, 1, 0, -1, 65_537, 0,
           [65_536, 65_536]),
    chosen("2: doubled y equal to upper", DOUBLE, 1, 0, 0, 0, 32_768,
           [32_768, 32_768]),
    chosen("2: doubled y larger", STEP, 1, 0, 0, 0, 32_769,
           [32_768, 32_768]),
    chosen_past_width("the width in 1", STEP, 65_536, 0, HUGE),
    chosen_past_width("the width in 1, below 0", STEP, 65_536, 0, -HUGE),
    chosen_past_width("1 beside a width", HALVE, 131_074, 0, HUGE),
    chosen_past_width("the width in 2", DOUBLE, 0, 0, HUGE),
    chosen_past_width("the width equal to lower", DOUBLE, 0, 0, 65_536),
    chosen_past_width("the width in 2, doubled", DOUBLE, 0, MOST, 0),
    # 2^22 at level 5 is 131,072 in one step, at level 6 it is 65,536.
    chosen("1: F = 6, level 5", HALVE, 5, 0, 0, 2**23, 0, finest=6),
    chosen("1: F = 6, level 6", STEP, 6, 0, 0, 2**23, 0, finest=6),
    chosen("1: F = 12, level 11", HALVE, 11, 0, 0, 2**28, 0, finest=12),
    chosen("1: F = 12, level 12", STEP, 12, 0, 0, 2**30, 0, finest=12),
    chosen("2: F = 6, in line", DOUBLE, 2, 32, 0, 0, 0, finest=6),
    chosen("2: F = 6, not in line", STEP, 2, 16, 0, 0, 0, finest=6),
    chosen("2: F = 12, in line", DOUBLE, 2, 2_048, 0, 0, 0, finest=12),
    chosen("2: F = 12, not in line", STEP, 2, 1_024, 0, 0, 0, finest=12),
    operated("10: level 12", "step", 10, 12, 0),
    operated("10 before 6", "halve", 10, 12, 0),
    operated("10 before 5", "step", 10, 12, 2_048),
    operated("10: twice the end", "step", 10, 0, 4_096),
    operated("10: past the end", "step", 10, 11, 2_049),
    operated("10: no multiple of s", "step", 10, 0, 1),
    operated("5", "step", 5, 0, 2_048),
    operated("5 before 6", "halve", 5, 11, 2_048),
    operated("5 before 7", "double", 5, 0, 2_048),
    operated("the last position before the end", "step", 0, 11, 2_047),
    operated("6 before 10 by registers", "halve", 6, 11, 0, *OUTSIDE),
    operated("level 10 is halved", "halve", 0, 10, 0),
    operated("7", "double", 7, 0, 0),
    operated("8", "double", 8, 1, 1_024),
    operated("10 by a register", "halve", 10, 0, 0, *OUTSIDE),
    operated("the least register", "step", 0, 0, 0, 0, 0, -1, LEAST + 1),
    operated("10 below it", "step", 10, 0, 0, 0, 0, -1, LEAST),
    operated("the largest register", "step", 0, 0, 0,
             *AT_REST, 0, 0, 1, MOST - 1),
    operated("10 above it", "step", 10, 0, 0, *AT_REST, 0, 0, 1, MOST),
    operated_width("10 by the width", "halve", 10, 0, *OUTSIDE),
    operated_width("6 before 10 by the width", "halve", 6, 11, *OUTSIDE),
    operated_width("the width's least", "step", 0, 0, 0, 0, -1, LEAST + 1),
    operated_width("10 below the width's least", "step", 10, 0,
                   0, 0, -1, LEAST),
    operated_width("the width's largest", "step", 0, 0, 0, 0, 1, MOST - 1),
    operated_width("10 above the width's largest", "step", 10, 0,
                   0, 0, 1, MOST),
    operated_width("the width's a doubled", "double", 0, 1,
                   2**30 - 1, 0, 0, 0),
    operated_width("10 by the width's a doubled", "double", 10, 1,
                   2**30, 0, 0, 0),
    operated("10: F = 5", "step", 10, 0, 0, finest=5),
    operated("10: F = 13", "step", 10, 0, 0, finest=13),
    *[operated("10: every number 0", name, 10, 0, 0, finest=0)
      for name in OPERATION_NAMES],
    operated("5 by F = 6", "step", 5, 0, 64, finest=6),
    operated("the last position by F = 6", "step", 0, 6, 63, finest=6),
    operated("10: past the end by F = 6", "step", 10, 6, 65, finest=6),
    operated("10: level 7 by F = 6", "step", 10, 7, 0, finest=6),
    operated("6 by F = 6", "halve", 6, 6, 0, finest=6),
    operated("level 5 is halved by F = 6", "halve", 0, 5, 0, finest=6),
    operated("8 by F = 6", "double", 8, 1, 32, finest=6),
    operated("5 by F = 12", "step", 5, 0, 4_096, finest=12),
    operated("the last position by F = 12", "step", 0, 12, 4_095, finest=12),
    operated("6 by F = 12", "halve", 6, 12, 0, finest=12),
    operated("level 11 is halved by F = 12", "halve", 0, 11, 0, finest=12),
    operated("10: level 13 by F = 12", "step", 10, 13, 0, finest=12),
    operated("8 by F = 12", "double", 8, 1, 2_048, finest=12),
    ("half of an odd a", "halve", drawing(0, 0, -3, 0, 0, 0),
     line([0, *drawing(1, 0, -2, 2, 0, 0)])),
    started("1 before 2 and 3", 1, [16_384, 0, 0, 0], 12),
    started("2 before 3", 2, [683, 0, 0, 0], 12),
    started("3", 3, [682, 0, 0, 0], 12),
    started("none", 0, [682, 0, 0, 0], 11),
    started("1 by a width", 1, AT_REST, 0, [16_384] * 4),
    started("1 by a width below", 1, AT_REST, 0, [-16_385] * 4),
    started("1 by the last width before 2 by y", 1, [683, 0, 0, 0], 12,
            [0, 0, 0, 16_384]),
    started("2 by a width before 3", 2, AT_REST, 12, [683, 0, 0, 0]),
    started("2 by the last width", 2, AT_REST, 0, [0, 0, 0, -683]),
    started("3 with widths", 3, AT_REST, 12, [682, 0, 0, 0]),
    started("widths at their ends", 0, [16_383] * 4, 11, [-16_384] * 4),
    started("widths as far apart as they may be", 0, AT_REST, 11,
            [682, 0, 682, 0]),
    started("24 before 1", 24, [16_384, 0, 0, 0], 0, finest=5),
    started("24 by F = 13", 24, AT_REST, 0, finest=13),
    started("as far apart as F = 6 lets it", 0, [20, 0, 0, 0], 6, finest=6),
    started("3 by F = 6", 3, [20, 0, 0, 0], 7, finest=6),
    started("2 before 3 by F = 6", 2, [21, 0, 0, 0], 7, finest=6),
    started("2 by the last width by F = 6", 2, AT_REST, 0, [0, 0, 0, 21],
            finest=6),
    started("1 before 2 and 3 by F = 6", 1, [16_384, 0, 0, 0], 7, finest=6),
    started("as far apart as F = 12 lets it", 0, [682, 0, 0, 0], 12,
            finest=12),
    started("3 by F = 12", 3, [682, 0, 0, 0], 13, finest=12),
    started("2 before 3 by F = 12", 2, [683, 0, 0, 0], 13, finest=12),
    started("1 before 2 and 3, quadratic", 1, [16_384, 0, 0], 12),
    started("1 by the middle point, quadratic", 1, [0, -16_385, 0], 12),
    started("1 by the last point, quadratic", 1, [0, 0, -16_385], 0),
    started("1 by a width before 2, quadratic", 1, [1_024, 0, 0], 12,
            [0, 0, 16_384]),
    started("2 before 3, quadratic", 2, [1_024, 0, 0], 12),
    started("2 by the last point, quadratic", 2, [0, 0, -1_024], 0),
    started("2 by a width, quadratic", 2, [0, 0, 0], 0, [0, 1_024, 1_024]),
    started("3, quadratic", 3, [1_023, 0, 0], 12),
    started("none, quadratic", 0, [1_023, 0, 1_023], 11, [0, -1_023, 0]),
    started("24 before 1, quadratic", 24, [16_384, 0, 0], 0, finest=13),
    started("24 below, quadratic", 24, [0, 0, 0], 0, finest=5),
    started("as far apart as F = 6 lets it, quadratic", 0, [31, 0, 31], 6,
            finest=6),
    started("2 before 3 by F = 6, quadratic", 2, [32, 0, 0], 7, finest=6),
    started("3 by F = 6, quadratic", 3, [31, 0, 0], 7, finest=6),
    started("as far apart as F = 12 lets it, quadratic", 0, [1_023, 0, 0], 12,
            finest=12),
    started("2 before 3 by F = 12, quadratic", 2, [1_024, 0, 0], 13,
            finest=12),
    refused_choice("4 before 10 and 5", 4, 12, 2_048, [0, 0]),
    refused_choice("4 before 5", 4, 0, 2_048, [65_537, 0]),
    refused_choice("choosing: 10 before 5", 10, 12, 2_048),
    refused_choice("choosing: 5", 5, 0, 2_048),
    refused_choice("4 before 10 by F = 5", 4, 0, 0, [0, 0], finest=5),
    refused_choice("choosing: 10 by F = 5", 10, 0, 0, finest=5),
    refused_choice("choosing: 5 by F = 6", 5, 0, 64, finest=6),
    refused_choice("choosing: 5 by F = 12", 5, 0, 4_096, finest=12),
]
