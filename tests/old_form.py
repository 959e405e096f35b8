"""Sheets of the old form, as document 01 has it: a point is x and y alone.

A path is (level, points), always of cubics, and a point (x, y). With any path
in it such a sheet is always refused: by its segments a record is longer than
it is there. One path runs past the end, 15. With more of them points may be
read that are none, 2; else offset 1 is wrong, 13, or the first record runs past
the end. A mark of 256 and more has no place there: levels are at most 11.
"""
import random
from struct import pack

from chance import clamped, random_level, random_limits
from makers import LIMITS
from model.constants import (CUBIC, FARTHEST, HIGHEST, LOWEST, MOST_SEGMENTS,
                             SHEET_FINEST)
from model.points import points_in, segments_of

REFUSALS = {2, 13, 15}


def old_record(level, points):
    return (pack("<HH", segments_of(CUBIC, points), level)
            + b"".join(pack("<hh", *point) for point in points))


def old_sheet(upper, lower, paths):
    records = [old_record(*path) for path in paths]
    header = pack("<III", len(paths), upper, lower)
    offset = len(header) + 4 * len(paths)
    for record in records:
        header += pack("<I", offset)
        offset += len(record)
    return header + b"".join(records)


# By chance

def old_path(chance):
    """A walk that document 01 accepts."""
    segments = chance.choice([1, 1, 2, 3, 5, MOST_SEGMENTS])
    far = chance.choice([0, 1, 3, 100, FARTHEST[CUBIC]])
    end = chance.choice([10, 300, HIGHEST])
    here = chance.randint(-end, end), chance.randint(-end, end)
    points = []
    for _ in range(points_in(CUBIC, segments)):
        points.append(here)
        here = tuple(clamped(value + chance.randint(-far, far), LOWEST,
                             HIGHEST) for value in here)
    return random_level(chance, SHEET_FINEST), points


def random_old_sheets(seed, number):
    """So many, each with the number of its paths, 1 and more."""
    chance = random.Random(seed)
    for _ in range(number):
        count = chance.choice([1, 1, 2, 3, chance.randint(4, 12)])
        paths = [old_path(chance) for _ in range(count)]
        yield count, old_sheet(*random_limits(chance), paths)


# By hand: (refusal, sheet)

def still(segments, *place, level=0):
    return level, [place] * points_in(CUBIC, segments)


def old(*paths):
    return old_sheet(*LIMITS, paths)


OLD_PAIR = old(still(1, 0, 0), still(1, 0, 0))

BY_HAND = [
    # One path runs past the end, whatever its size and its points.
    (15, old(still(1, 0, 0))),
    (15, old(still(1, HIGHEST, LOWEST))),
    (15, old(still(2, 7, -7, level=11))),
    (15, old(still(MOST_SEGMENTS, 1, 1))),
    # Offset 1 is where the old record ended.
    (13, OLD_PAIR),
    (13, old(still(2, 9, -9), still(5, 9, 9), still(1, 0, 0))),
    (13, old(*[still(1, k, k) for k in range(12)])),
    # The first record is longer than both were.
    (15, old(still(5, 0, 0), still(1, 0, 0))),
    # x of one point is taken for the width of another, and for a y.
    (2, old(still(1, 700, 0), still(1, 0, 0))),
]
