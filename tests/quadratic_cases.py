"""Order 10's cases, reckoned by hand: requests for the probe with quadratic
curves, paths and records, and with degrees that are none.

CASES has (what is tried, name of the request, argument words, answer line).
"""
from document_cases import drawing, on_x
from finest_cases import (by_each_entry, drawn, entries, measured, operated,
                          refused_drawing, refused_path, refused_start,
                          started)
from makers import LIMITS, on_width
from model.constants import CUBIC, LEAST, MOST, QUADRATIC
from model.points import flat
from probe_protocol import (BAD, START_NAMES, UNUSED_BYTE, UNUSED_NUMBER,
                            line)

# F, the end of a segment, and how far apart neighbours may be
BY_FINEST = [(6, 64, 31), (7, 128, 63), (8, 256, 127), (9, 512, 255),
             (10, 1_024, 511), (11, 2_048, 1_023), (12, 4_096, 1_023)]

# P has B = 4 alone: x is 4 t^2. Q has C = 2 alone: x is 2 t.
P, Q = on_x(0, 0, 4), on_x(0, 1, 2)


# Starts and operations. At level n, P's b is 65,536 * 8 and its c 65,536 * 4,
# divided by 2^n; a is 0.

def at_level(finest, level):
    return drawing(level, 0, 0, 524_288, 262_144 >> level, 0, finest=finest)


def halves(finest):
    """From level 0 down to F, and one level back."""
    for level in (0, 5, finest):
        yield started("P", finest, level, P, 0, 524_288, 262_144 >> level, 0,
                      degree=QUADRATIC)
    for level in range(finest):
        yield operated("P halved", "halve", at_level(finest, level),
                       at_level(finest, level + 1))
    last = at_level(finest, finest)
    yield "6 at level F", "halve", last, line([6, *last])
    yield operated("level F doubled", "double", last,
                   at_level(finest, finest - 1))


# P at level 2, and its steps to the end: c and d. x is 1/4, 1, 9/4 and 4.

P_STEPPED = [(65_536, 0), (196_608, 16_384), (327_680, 65_536),
             (458_752, 147_456), (589_824, 262_144)]


def steps(finest, positions):
    drawings = [drawing(2, q, 0, 524_288, *registers, finest=finest)
                for q, registers in zip(positions, P_STEPPED)]
    for before, after in zip(drawings, drawings[1:]):
        yield operated("P stepped", "step", before, after)
    end = drawings[-1]
    yield from refused_drawing("5 at the end", 5, end)
    yield "the end", "shown", end, line([4, 0, 0])


# B = -1 alone: at level 12 its c is -16. A shift is a floor: d is -1, not 0.

DOWN = drawing(12, 0, 0, -131_072, -16, 0, finest=12)
DOWN_STEPPED = drawing(12, 1, 0, -131_072, -48, -1, finest=12)

# There and back as far as may be: B = -2,046 and C = 2,046, so that c is 0 at
# level 0. After its one step c is b, 4 * 1,023 units below 0.

THERE_AND_BACK = drawing(0, 0, 0, -268_173_312, 0, 0)
AND_BACK = drawing(0, 2_048, 0, -268_173_312, -268_173_312, 0)

# x is Q, y is 2, 1, 0 and the width is P.

THREE = flat([(0, 2, 0), (1, 1, 0), (2, 0, 4)])
THREE_STARTED = [11, 0, 0,
                 0, 0, 131_072, 0,
                 0, 0, -131_072, 131_072,
                 0, 524_288, 262_144, 0]

CURVES = [
    *halves(6), *halves(12),
    *steps(6, [0, 16, 32, 48, 64]),
    *steps(12, [0, 1_024, 2_048, 3_072, 4_096]),
    started("down", 12, 12, on_x(0, 0, -1), 0, -131_072, -16, 0,
            degree=QUADRATIC),
    operated("down", "step", DOWN, DOWN_STEPPED),
    operated("down", "step", DOWN_STEPPED,
             drawing(12, 2, 0, -131_072, -80, -2, finest=12)),
    started("there and back", 11, 0, on_x(0, 1_023, 0), 0, -268_173_312, 0, 0,
            degree=QUADRATIC),
    operated("there and back", "step", THERE_AND_BACK, AND_BACK),
    started("Q", 11, 11, Q, 0, 0, 131_072, 0, degree=QUADRATIC),
    ("three curves", "start_quadratic", [*THREE, 11, 0],
     line([0, *THREE_STARTED])),
]


# Neighbours as far apart as they may be, and one more. 0, r, r has C = 2r and
# B = -r: at level 0, b = -2r and c = r, in 65,536ths. The width alone is drawn
# in one step. 0, r, 2r is the fastest curve: 2r is more than half of 2^F up to
# F = 11, so that each position is listed. At F = 12 level 11 will do, unless
# upper is half as large.

def neighbours(finest, end, far):
    yield started("neighbours", finest, 0, on_x(0, far, far), 0,
                  -131_072 * far, 65_536 * far, 0, degree=QUADRATIC)
    yield from by_each_entry("neighbours", [QUADRATIC, 1, finest, 0], LIMITS,
                             flat(on_width(3, 4, 0, far, far)), [0, 2, 0],
                             [0, 3, 4, 0, end, 3, 4, far])
    for numbers in (on_x(0, far + 1, far + 1), on_x(0, 0, -far - 1),
                    flat(on_width(3, 4, 0, far + 1, 0))):
        yield refused_start("2 by F", 2, finest, 0, numbers, QUADRATIC)
        yield ("2 by F", "measure",
               [QUADRATIC, 1, finest, 0, *LIMITS, *numbers], line([2, 0, 0]))


def fastest(finest, far, points, limits=LIMITS):
    return measured("the fastest curve", points, 2_000 * far, 1, finest, 0,
                    limits, on_x(0, far, 2 * far), QUADRATIC)


NEIGHBOURS = [
    *flat(neighbours(*row) for row in BY_FINEST),
    *[fastest(finest, far, end + 1) for finest, end, far in BY_FINEST[:-1]],
    fastest(12, 1_023, 2_049), fastest(12, 1_023, 4_097, (32_768, 0)),
    # What is near enough in a quadratic is too far in a cubic.
    refused_start("2 of a cubic", 2, 6, 0, on_x(0, 21, 21, 21)),
    started("not of a quadratic", 6, 0, on_x(0, 21, 21), 0, -2_752_512,
            1_376_256, 0, degree=QUADRATIC),
]


# Lists. P is drawn in one step at level 1, where its increment is a unit, and
# in four at level 3: x is 1, 25/16, 9/4, 49/16 and 4. Then it goes back.

P_POSITIONS = [0, 1_024, 1_280, 1_536, 1_792, 2_048]
THERE, BACK = [0, 1, 2, 2, 3, 4], [3, 2, 2, 1, 0]
SEVEN = on_x(*range(7))


def both_ways(finest):
    """P and its way back: two segments, with points 2 to 4 in the second."""
    positions = [*P_POSITIONS,
                 *[2_048 + position for position in P_POSITIONS[1:]]]
    listed = entries([position * 2**finest // 2_048 for position in positions],
                     THERE + BACK)
    return drawn("P and back", 2, finest, on_x(0, 0, 4, 4, 0), listed, 8_000,
                 QUADRATIC)


LISTS = [
    drawn("P", 1, 11, P, entries(P_POSITIONS, THERE), 4_000, QUADRATIC),
    drawn("Q", 1, 11, Q, entries([0, 1_024, 2_048], [0, 1, 2]), 2_000,
          QUADRATIC),
    both_ways(6), both_ways(11), both_ways(12),
    drawn("three curves", 1, 11, THREE,
          [(0, 0, 2, 0), (1_024, 1, 1, 1), (2_048, 2, 0, 4)], 2_828,
          QUADRATIC),
    drawn("a join", 2, 11, flat(on_width(6, -2, 4, 4, 9, 3, 3)),
          [(0, 6, -2, 4), (2_048, 6, -2, 9), (4_096, 6, -2, 3)], 0, QUADRATIC),
    drawn("the width alone moves", 1, 11,
          flat(on_width(5, -3, 0, 1_023, 2_046)),
          [(0, 5, -3, 0), (2_048, 5, -3, 2_046)], 0, QUADRATIC),
    # An increment of 2,048 is larger than 1: all steps are at level F.
    measured("rule 1 stops at F", 65, 2_000, 1, 6, 0, (1, 0), Q, QUADRATIC),
    measured("64 segments", 4_097, 0, 64, 6, 6, (65_536, 0), [9] * 387,
             QUADRATIC),
    # Seven points are three segments of Q, and two of document 01's A.
    measured("seven points", 7, 6_000, 3, 11, 0, LIMITS, SEVEN, QUADRATIC),
    measured("seven points", 9, 6_000, 2, 11, 0, LIMITS, SEVEN, CUBIC),
]


# Refusals of paths: 14 by 3(2S + 1) numbers, and all that comes after it.

FAR, APART = on_x(0, 0, 16_384), on_x(0, 1_024, 1_024)

REFUSED = [
    *[one for degree, segments, numbers in [
        (QUADRATIC, 1, on_x(0, 1, 2, 3)), (CUBIC, 1, Q), (QUADRATIC, 2, SEVEN),
        (CUBIC, 3, SEVEN), (QUADRATIC, 1, [*Q, 0]), (QUADRATIC, 0, [0] * 3),
        # 3(2S + 1) is 2^32 + 5.
        (QUADRATIC, 715_827_883, [0] * 5)]
      for one in refused_path("14", 14, segments, 11, 0, LIMITS, numbers,
                              degree)],
    *refused_path("14 before 24", 14, 1, 5, 0, LIMITS, Q[:-1], QUADRATIC),
    *refused_path("24 before 1", 24, 1, 5, 0, LIMITS, FAR, QUADRATIC),
    *refused_path("24", 24, 1, 13, 0, LIMITS, Q, QUADRATIC),
    *refused_path("1 by a width", 1, 1, 11, 0, LIMITS,
                  flat(on_width(0, 0, *[16_384] * 3)), QUADRATIC),
    *refused_path("1 before 2", 1, 2, 11, 12, LIMITS,
                  on_x(0, 1_024, 1_024, 0, 16_384), QUADRATIC),
    *refused_path("2 before 3", 2, 1, 11, 12, LIMITS, APART, QUADRATIC),
    *refused_path("3 before 4", 3, 1, 11, 12, (0, 0), Q, QUADRATIC),
    # The mark is none of a path's.
    *refused_path("3", 3, 1, 11, 256, LIMITS, Q, QUADRATIC),
    refused_start("3", 3, 11, 256, Q, QUADRATIC),
    ("4 before 9", "draw", [0, QUADRATIC, 1, 11, 0, 0, 0, *Q],
     line([4, 0, 0])),
    ("9", "draw", [11, QUADRATIC, 1, 11, 0, *LIMITS, *Q],
     line([9, 0, 0, *[UNUSED_NUMBER] * 11])),
    refused_start("24 before 1", 24, 5, 0, FAR, QUADRATIC),
    refused_start("1 before 2", 1, 11, 12, on_x(0, 1_024, 16_384), QUADRATIC),
    refused_start("2 before 3", 2, 11, 12, APART, QUADRATIC),
    refused_start("3", 3, 11, 12, Q, QUADRATIC),
]


# Requests that are none: a degree that is none, whatever else is there, and
# the points of the other start.

def without_degree(degree):
    for path, numbers in ([1, 11, 0], on_x(0, 1, 2, 3)), ([0, 5, 12], Q):
        for name, limits in (("", LIMITS), ("_standard", [])):
            words = [degree, *path, *limits, *numbers]
            yield "no degree", "draw" + name, [8, *words], BAD
            yield "no degree", "measure" + name, words, BAD


BAD_REQUESTS = [
    *flat(map(without_degree, (0, 1, 4, -1))),
    *[("no degree", "measure", [degree, 1, 11, 0, *LIMITS, *Q], BAD)
      for degree in (5, 6, -2, -3, 258, 2**16 + 2, 2**31 - 1, 2**31,
                     2**31 + 2, 2**32 - 1)],
    ("no degree and no room", "draw", [-1, 4, 1, 11, 0, *LIMITS, *Q], BAD),
    ("no limits", "measure", [QUADRATIC, 1, 11, 0], BAD),
    ("no level", "measure_standard", [QUADRATIC, 1, 11], BAD),
    *[(f"{len(numbers) // 3} points", START_NAMES[degree], [*numbers, 11, 0],
       BAD)
      for degree, numbers in [(QUADRATIC, on_x(0, 1, 2, 3)), (CUBIC, Q),
                              (QUADRATIC, Q[:-1])]],
]


# A sheet of Q: one segment, and 256 for a quadratic's level 0.

SHEET = bytes.fromhex("01000000 00000100 00800000 10000000 0100 0001"
                      "000000000000 010000000000 020000000000")
NUMBERS = [1, 65_536, 32_768, 1, 256, *Q]
MARK_PLACE, LISTED_MARK = 18, 4
LISTING = """\
paths 1
path 0 points 3 length 2000
0 0 0 0
1024 1 0 0
2048 2 0 0
"""

# By the mark: as a cubic the record runs past the end, the list ends early.
ACCEPTED = [256, 257, 266, 267]
AS_CUBIC = [0, 11]
NO_LEVEL = [12, 255, 268, 511, 512, 523, 768, 65_280, 65_535]
NO_LEVEL_LISTED = [*NO_LEVEL, 65_536 + 256, MOST, -1, -245, -256, LEAST]


def sheet_marked(mark):
    low, high = mark % 256, mark // 256
    return [*SHEET[:MARK_PLACE], low, high, *SHEET[MARK_PLACE + 2:]]


def list_marked(mark):
    return [*NUMBERS[:LISTED_MARK], mark, *NUMBERS[LISTED_MARK + 1:]]


def accepted(mark):
    """Read and written, with a place more than is needed."""
    data, listed = sheet_marked(mark), list_marked(mark)
    yield (f"mark {mark}", "read", [15, *data],
           line([0, 14, *listed, UNUSED_NUMBER]))
    yield (f"mark {mark}", "write", [39, *listed],
           line([0, 38, *data, UNUSED_BYTE]))


def refused_sheet(refusal, mark):
    return (f"mark {mark}", "read", [2, *sheet_marked(mark)],
            line([refusal, 0, *[UNUSED_NUMBER] * 2]))


def refused_list(refusal, mark):
    return (f"mark {mark}", "write", [2, *list_marked(mark)],
            line([refusal, 0, *[UNUSED_BYTE] * 2]))


MARKS = [
    *flat(map(accepted, ACCEPTED)),
    *[refused_sheet(3, mark) for mark in NO_LEVEL],
    *[refused_list(3, mark) for mark in NO_LEVEL_LISTED],
    *[refused_sheet(15, mark) for mark in AS_CUBIC],
    *[refused_list(17, mark) for mark in AS_CUBIC],
]

CASES = CURVES + NEIGHBOURS + LISTS + REFUSED + BAD_REQUESTS + MARKS
