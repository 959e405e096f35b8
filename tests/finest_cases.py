"""Order 9's cases, reckoned by hand: requests for the probe at every finest
level F, and at some that are none.

CASES has (what is tried, name of the request, argument words, answer line).
Where nothing else is said curves are cubics.
"""
from document_cases import NO_DRAWING, TWELVE, drawing, on_x
from makers import LIMITS, on_width
from model.constants import CUBIC
from model.points import flat
from probe_model import OPERATION_NAMES
from probe_protocol import START_NAMES, UNUSED_NUMBER, line

# F, the end of a segment, and how far apart neighbours may be
BY_FINEST = [(6, 64, 20), (7, 128, 42), (8, 256, 84), (9, 512, 170),
             (10, 1_024, 340), (11, 2_048, 682), (12, 4_096, 682)]

NO_FINEST = [5, 13, 0, 31, 32, 43, 2**31, 2**32 - 1]

ROOM = 8                # two entries
UNWRITTEN = [UNUSED_NUMBER] * ROOM

# Document 01's A and C: C = 3 alone, and A = 8 alone
A_POINTS, C_POINTS = on_x(0, 1, 2, 3), on_x(0, 0, 0, 8)


def started(what, finest, level, numbers, *registers, degree=CUBIC):
    answer = [0, *drawing(level, 0, *registers, finest=finest)]
    return what, START_NAMES[degree], [*numbers, finest, level], line(answer)


def refused_start(what, refusal, finest, level, numbers, degree=CUBIC):
    return (what, START_NAMES[degree], [*numbers, finest, level],
            line([refusal, *NO_DRAWING]))


def operated(what, name, before, after):
    return what, name, before, line([0, *after])


def refused_drawing(what, refusal, numbers):
    """Refused by each operation, and by choosing."""
    for name in OPERATION_NAMES:
        yield what, name, numbers, line([refusal, *numbers])
    yield what, "next", [*numbers, *LIMITS], line([refusal, 0])
    yield what, "next_standard", numbers, line([refusal, 0])


def drawn(what, segments, finest, numbers, entries, length, degree=CUBIC):
    """A path drawn from level 0, with as much room as it needs."""
    listed = flat(entries)
    words = [len(listed), degree, segments, finest, 0, *LIMITS, *numbers]
    return what, "draw", words, line([0, len(entries), length, *listed])


def measured(what, points, length, segments, finest, level, limits, numbers,
             degree=CUBIC):
    words = [degree, segments, finest, level, *limits, *numbers]
    return what, "measure", words, line([0, points, length])


def by_each_entry(what, path, limits, numbers, answer, listed):
    """A path drawn and measured, with its limits and without them."""
    for name, named in (("", limits), ("_standard", [])):
        words = [*path, *named, *numbers]
        yield what, "draw" + name, [ROOM, *words], line([*answer, *listed])
        yield what, "measure" + name, words, line(answer)


def refused_path(what, refusal, segments, finest, level, limits, numbers,
                 degree=CUBIC):
    return by_each_entry(what, [degree, segments, finest, level], limits,
                         numbers, [refusal, 0, 0], UNWRITTEN)


# C at level n: a and b are 3,145,728 / 2^n and c is 524,288 / 4^n, as far as
# that is whole; at level 10 it is 2 - (3,072 >> 11), then 1 - (1,536 >> 12),
# and then 1 - (768 >> 13).

C_HALVED = [(3_145_728, 524_288), (1_572_864, 131_072), (786_432, 32_768),
            (393_216, 8_192), (196_608, 2_048), (98_304, 512), (49_152, 128),
            (24_576, 32), (12_288, 8), (6_144, 2), (3_072, 1), (1_536, 1),
            (768, 1)]


def halved(finest, level):
    a, c = C_HALVED[level]
    return drawing(level, 0, a, a, c, 0, finest=finest)


def halves(finest):
    """From level 0 down to F, and one level back."""
    a, c = C_HALVED[0]
    yield started("C", finest, 0, C_POINTS, a, a, c, 0)
    for level in range(finest):
        yield operated("C halved", "halve", halved(finest, level),
                       halved(finest, level + 1))
    last = halved(finest, finest)
    yield "6 at level F", "halve", last, line([6, *last])
    yield operated("level F doubled", "double", last,
                   halved(finest, finest - 1))


# C halved twice, and its steps to the end: b, c and d. x is 8/64, 1, 216/64
# and 8 there.

C_STEPPED = [(786_432, 32_768, 0), (1_572_864, 229_376, 8_192),
             (2_359_296, 622_592, 65_536), (3_145_728, 1_212_416, 221_184),
             (3_932_160, 1_998_848, 524_288)]


def steps(finest, positions):
    drawings = [drawing(2, q, 786_432, *registers, finest=finest)
                for q, registers in zip(positions, C_STEPPED)]
    for before, after in zip(drawings, drawings[1:]):
        yield operated("C stepped", "step", before, after)
    end = drawings[-1]
    yield from refused_drawing("5 at the end by F", 5, end)
    yield "the end", "shown", end, line([8, 0, 0])


# Document 01's M: half of the way is no multiple of 2s.

def half_way(finest, q):
    stepped = drawing(1, q, 1_572_864, 3_145_728, 917_504, 65_536,
                      finest=finest)
    yield operated("M", "step", halved(finest, 1), stepped)
    yield "M", "double", stepped, line([8, *stepped])


# Level F, and the one above it.

def levels(finest):
    yield started("level F", finest, finest, A_POINTS, 0, 0, 196_608, 0)
    yield refused_start("3 above F", 3, finest, finest + 1, A_POINTS)
    yield from refused_path("3 above F", 3, 1, finest, finest + 1, LIMITS,
                            A_POINTS)


# Neighbours as far apart as they may be, and one more. 0, r, r, r has C = 3r,
# B = -3r and A = r: at level 0, a = 6r, b = 0 and c = r, in 65,536ths. The
# width alone is drawn in one step.

def corner(far):
    return [0, far, far, far]


def neighbours(finest, end, far):
    yield started("neighbours", finest, 0, on_x(*corner(far)),
                  65_536 * 6 * far, 0, 65_536 * far, 0)
    yield from by_each_entry("neighbours", [CUBIC, 1, finest, 0], LIMITS,
                             flat(on_width(3, 4, *corner(far))),
                             [0, 2, 0], [0, 3, 4, 0, end, 3, 4, far])
    for numbers in (on_x(*corner(far + 1)), on_x(*corner(-far - 1)),
                    flat(on_width(3, 4, *corner(far + 1)))):
        yield refused_start("2 by F", 2, finest, 0, numbers)
        yield from refused_path("2 by F", 2, 1, finest, 0, LIMITS, numbers)


# 0, r, 2r, 3r is the fastest curve. 3r is more than half of 2^F up to F = 11,
# so that each position is listed. At F = 12 level 11 will do, unless upper is
# half as large.

def fastest(finest, far, points, limits=LIMITS):
    return measured("the fastest curve", points, 3_000 * far, 1, finest, 0,
                    limits, on_x(0, far, 2 * far, 3 * far))


# Lists. Where F alone is another, x goes as in document 01: L's positions are
# those that it gives, divided by 32 at F = 6 and doubled at F = 12. The path
# of two segments goes on after its A, from 3 to 6.

L_DRAWN = [0, 1, 2, 3, 3, 4, 5, 5, 6, 7, 7, 8]
TWO_POINTS, TWO_DRAWN = on_x(*range(7)), [0, 1, 2, 2, 3, 4, 5, 5, 6]


def entries(positions, xs):
    return [(position, x, 0, 0) for position, x in zip(positions, xs)]


LISTS = [
    drawn("L", 1, 6, C_POINTS,
          entries([0, 32, 40, 44, 48, 52, 54, 56, 58, 60, 62, 64], L_DRAWN),
          8_000),
    drawn("L", 1, 12, C_POINTS,
          entries([2 * position for position in TWELVE], L_DRAWN), 8_000),
    drawn("two segments", 2, 6, TWO_POINTS,
          entries([0, 16, 32, 48, 64, 80, 96, 112, 128], TWO_DRAWN), 6_000),
    drawn("two segments", 2, 12, TWO_POINTS,
          entries([0, 1_024, 2_048, 3_072, 4_096, 5_120, 6_144, 7_168, 8_192],
                  TWO_DRAWN), 6_000),
    # An increment of 3,072 or 48 is larger than 1: all steps are at level F.
    measured("rule 1 stops at F", 65, 3_000, 1, 6, 0, (1, 0), A_POINTS),
    measured("rule 1 stops at F", 4_097, 3_000, 1, 12, 0, (1, 0), A_POINTS),
    # Nothing is smaller than 0: level 12 stays. 64 * 4,096 + 1 entries.
    measured("the most points", 262_145, 0, 64, 12, 12, (65_536, 0),
             [9] * 579),
]


# F that is none: 24 and 10, and all that comes before and after 24.

def without_finest(finest):
    yield refused_start("24", 24, finest, 0, A_POINTS)
    yield from refused_path("24", 24, 1, finest, 0, LIMITS, A_POINTS)
    made_up = drawing(1, 0, 0, 0, 0, 65_536, finest=finest)
    yield from refused_drawing("10 by F", 10, made_up)
    yield "4 before 10 by F", "next", [*made_up, 0, 0], line([4, 0])
    yield "no rule for F", "shown", made_up, line([1, 0, 0])


FAR, APART = on_x(*[16_384] * 4), on_x(0, 700, 700, 700)

ORDER = [
    refused_start("24 before 1", 24, 5, 0, FAR),
    refused_start("24 before 2", 24, 13, 0, APART),
    refused_start("24 before 3", 24, 5, 12, A_POINTS),
    *refused_path("14 before 24", 14, 0, 5, 0, LIMITS, A_POINTS),
    *refused_path("14 before 24", 14, 65, 13, 0, LIMITS, A_POINTS),
    *refused_path("14 by the size before 24", 14, 1, 5, 0, LIMITS,
                  A_POINTS[:-1]),
    *refused_path("24 before 1", 24, 1, 5, 0, LIMITS, FAR),
    *refused_path("24 before 2", 24, 1, 13, 0, LIMITS, APART),
    *refused_path("24 before 3", 24, 1, 5, 12, LIMITS, A_POINTS),
    *refused_path("24 before 4", 24, 1, 13, 0, (0, 0), A_POINTS),
    # By F = 6: 21 apart in the first segment, and the last point far away.
    *refused_path("1 before 2 by F", 1, 2, 6, 0, LIMITS,
                  on_x(0, 21, 21, 21, 21, 21, 16_384)),
    *refused_path("2 by F before 3 by F", 2, 1, 6, 7, LIMITS,
                  on_x(0, 21, 21, 21)),
    *refused_path("3 by F before 4", 3, 1, 6, 7, (0, 0), A_POINTS),
    ("4 at level F", "measure", [CUBIC, 1, 6, 6, 0, 0, *A_POINTS],
     line([4, 0, 0])),
]

CASES = [
    *halves(6), *halves(12),
    *steps(6, [0, 16, 32, 48, 64]),
    *steps(12, [0, 1_024, 2_048, 3_072, 4_096]),
    *half_way(6, 32), *half_way(12, 2_048),
    *levels(6), *levels(12),
    *flat(neighbours(*row) for row in BY_FINEST),
    *[fastest(finest, far, end + 1) for finest, end, far in BY_FINEST[:-1]],
    fastest(12, 682, 2_049), fastest(12, 682, 4_097, (32_768, 0)),
    *LISTS,
    *flat(without_finest(finest) for finest in NO_FINEST),
    *ORDER,
    refused_start("every number 0", 1, 6, 0, FAR),
    *refused_drawing("every number 0", 10, NO_DRAWING),
    ("every number 0", "shown", NO_DRAWING, line([0, 0, 0])),
]
