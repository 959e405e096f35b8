"""Good sheets, their number lists, and what is refused of them.

SPOILT_SHEETS and SPOILT_LISTS have some for each refusal of reading and of
writing, by its number, but for 9, which depends on the room alone.
"""
from makers import (LIMITS, cubic, jump, number_list, point, quadratic, sheet,
                    straight)
from model.constants import (CUBIC, FARTHEST, HIGHEST, LEAST, LOWEST, MOST,
                             MOST_PATHS, MOST_SEGMENTS, ONE_UNIT,
                             POINT_NUMBERS, QUADRATIC, SHEET_FINEST)
from places import (COUNT, LISTED_COUNT, LISTED_LOWER, LISTED_UPPER, LOWER,
                    UPPER, listed_places, offset, put, record_places, swap)

BENT = cubic(SHEET_FINEST, [point(-5, 7, 24), point(-4, 9, -30),
                            point(100, -200, 8), point(50, 60, 400)])
PAIR = [straight(1), BENT]

ONE, ONE_LIST = sheet(straight(1)), number_list(straight(1))
TWO, TWO_LIST = sheet(*PAIR), number_list(*PAIR)

# Their places: of the only path, and of the first and the second.
ONLY, = record_places([straight(1)])
FIRST, SECOND = record_places(PAIR)
LISTED_ONLY, = listed_places([straight(1)])
LISTED_FIRST, LISTED_SECOND = listed_places(PAIR)

FAR, GAP = HIGHEST + 1, 700         # a coordinate and a gap that are too large


class Made:
    """A good sheet, its number list, and the places of its paths in both."""

    def __init__(self, *paths):
        self.data, self.listed = sheet(*paths), number_list(*paths)
        self.records, self.places = record_places(paths), listed_places(paths)


# Two quadratics; and one before a cubic. Two points are as far apart as those
# of a cubic may not be.
CURVED = quadratic(SHEET_FINEST, [point(-5, 7, 24), point(-4, 9, -30),
                                  point(-4 + GAP, -200, 8)])
CURVES = Made(straight(1, degree=QUADRATIC), CURVED)
MIXED = Made(CURVED, BENT)
LAST, LISTED_LAST = CURVES.records[1], CURVES.places[1]
TOO_FAR = FARTHEST[CUBIC] + 1       # for a cubic
QUADRATIC_GAP = FARTHEST[QUADRATIC] + 1


def wraps(bits):
    """Segments of a cubic whose points are about as many numbers as so many
    bits count."""
    return 2**bits // (CUBIC * POINT_NUMBERS)


SPOILT_SHEETS = {
    1: [put(TWO, (FIRST.x(0), FAR)), put(TWO, (SECOND.y(3), LOWEST - 1)),
        put(TWO, (FIRST.x(1), GAP), (FIRST.y(2), -32_768)),
        put(TWO, (SECOND.width(0), FAR)),
        put(TWO, (FIRST.y(1), GAP), (FIRST.width(3), LOWEST - 1)),
        put(CURVES.data, (LAST.width(2), FAR))],
    2: [put(ONE, (ONLY.x(3), 2 + TOO_FAR)),
        put(TWO, (SECOND.y(0), 9 - TOO_FAR)),
        sheet(jump(2, 2, TOO_FAR)),
        sheet(jump(2, 3, 0, -TOO_FAR)) + bytes(1),
        put(TWO, (SECOND.width(0), -30 + TOO_FAR)),
        sheet(jump(2, 5, 0, 0, -TOO_FAR)),
        put(MIXED.data, (MIXED.records[1].x(0), -4 - TOO_FAR)),
        sheet(jump(2, 1, QUADRATIC_GAP, degree=QUADRATIC)),
        put(CURVES.data, (LAST.width(0), -30 - QUADRATIC_GAP))],
    3: [put(ONE, (ONLY.mark, SHEET_FINEST + 1)),
        put(TWO, (SECOND.mark, 255)), put(TWO, (FIRST.mark, 65_535)),
        put(CURVES.data, (LAST.mark, 512)),
        put(CURVES.data, (LAST.mark, 256 + SHEET_FINEST + 1))],
    4: [put(ONE, (UPPER, 0)), put(ONE, (UPPER, ONE_UNIT + 1)),
        put(TWO, (LOWER, ONE_UNIT + 1)), put(TWO, (LOWER, 2**31))],
    11: [b"", sheet()[:1], sheet()[:-1]],
    12: [put(ONE, (COUNT, MOST_PATHS + 1)), put(ONE, (COUNT, 2**30)),
         ONE[:ONLY.start - 1], put(sheet(), (COUNT, 1))],
    13: [put(ONE, (offset(0), ONLY.start + 1)),
         put(TWO, (offset(1), SECOND.start + 1)),
         put(TWO, (offset(1), 2**32 - 1)), put(TWO, (COUNT, 1)),
         put(TWO, (FIRST.mark, 256))],
    14: [put(ONE, (ONLY.segments, 0)),
         put(TWO, (SECOND.segments, MOST_SEGMENTS + 1)),
         put(TWO, (FIRST.segments, 65_535)),
         put(CURVES.data, (LAST.segments, MOST_SEGMENTS + 1))],
    15: [ONE[:ONLY.start], ONE[:ONLY.start + 3], ONE[:-1],
         TWO[:SECOND.start], TWO[:-1], put(TWO, (SECOND.segments, 2)),
         put(CURVES.data, (LAST.mark, SHEET_FINEST))],
    16: [sheet() + bytes(1), TWO + bytes(1), put(ONE, (COUNT, 0)),
         put(TWO, (SECOND.mark, 256))],
}

SPOILT_LISTS = {
    1: [swap(ONE_LIST, (LISTED_ONLY.x(0), FAR)),
        swap(TWO_LIST, (LISTED_SECOND.y(3), LEAST)),
        swap(ONE_LIST, (LISTED_ONLY.x(1), GAP), (LISTED_ONLY.y(3), 65_536)),
        swap(TWO_LIST, (LISTED_FIRST.width(3), FAR)),
        swap(TWO_LIST, (LISTED_SECOND.width(0), LOWEST - 1)),
        swap(CURVES.listed, (LISTED_LAST.y(2), FAR))],
    2: [swap(ONE_LIST, (LISTED_ONLY.x(3), 2 + TOO_FAR)),
        swap(TWO_LIST, (LISTED_SECOND.y(0), 9 - TOO_FAR)),
        number_list(jump(2, 2, 0, TOO_FAR)) + [0],
        swap(ONE_LIST, (LISTED_ONLY.width(0), TOO_FAR)),
        number_list(jump(2, 2, 0, 0, -TOO_FAR)),
        number_list(CURVED, jump(1, 0, 0, TOO_FAR)),
        number_list(jump(2, 1, 0, 0, -QUADRATIC_GAP, degree=QUADRATIC)),
        swap(CURVES.listed, (LISTED_LAST.x(0), -4 - QUADRATIC_GAP))],
    3: [swap(ONE_LIST, (LISTED_ONLY.mark, SHEET_FINEST + 1)),
        swap(TWO_LIST, (LISTED_SECOND.mark, -1)),
        swap(TWO_LIST, (LISTED_FIRST.mark, MOST)),
        *[swap(CURVES.listed, (LISTED_LAST.mark, mark))
          for mark in (256 + SHEET_FINEST + 1, 512, 65_536 + 256, -256)]],
    4: [[0, 0, 0], swap(ONE_LIST, (LISTED_UPPER, ONE_UNIT + 1)),
        swap(TWO_LIST, (LISTED_LOWER, -1))],
    11: [number_list(*[straight(1)] * MOST_PATHS)],
    12: [[MOST_PATHS + 1, 0, 0], [-1, *LIMITS],
         swap(ONE_LIST, (LISTED_COUNT, LEAST))],
    14: [swap(ONE_LIST, (LISTED_ONLY.segments, 0)),
         swap(TWO_LIST, (LISTED_SECOND.segments, MOST_SEGMENTS + 1)),
         swap(TWO_LIST, (LISTED_FIRST.segments, wraps(32) + 1)),
         swap(ONE_LIST, (LISTED_ONLY.segments, -1)),
         swap(CURVES.listed, (LISTED_LAST.segments, MOST_SEGMENTS + 1))],
    17: [[], [0, 0], TWO_LIST[:LISTED_SECOND.mark], TWO_LIST[:-1],
         TWO_LIST + [0], swap(TWO_LIST, (LISTED_COUNT, 1)),
         [MOST_PATHS, *LIMITS],
         swap(TWO_LIST, (LISTED_SECOND.mark, 256)),
         swap(CURVES.listed, (LISTED_LAST.mark, SHEET_FINEST))],
}

READ_REFUSALS = {9, *SPOILT_SHEETS}
WRITE_REFUSALS = {9, *SPOILT_LISTS}


def two_of_each():
    """(refusal, sheet): the first and the last of each refusal."""
    return [(number, sheets[place]) for number, sheets in SPOILT_SHEETS.items()
            for place in (0, -1)]
