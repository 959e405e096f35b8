"""Makers of paths, and of sheets and number lists.

A path is the model's, and a cubic where nothing else is said. A point may be
given by its first coordinates: the others are 0. Upper and lower of a sheet
are LIMITS: named, so that they stay whatever an entry without limits uses.
"""
from model.constants import (CUBIC, MOST_PATHS, MOST_SEGMENTS, POINT_NUMBERS,
                             QUADRATIC, SHEET_FINEST)
from model.points import points_in
from model.sheet import Path, sheet_bytes, sheet_numbers

LIMITS = 65_536, 32_768


def point(*values):
    return (*values, *[0] * (POINT_NUMBERS - len(values)))


def on_x(*values):
    """Points that have these x."""
    return [point(value) for value in values]


def on_width(x, y, *values):
    """Points of one place that have these widths."""
    return [point(x, y, value) for value in values]


# Paths

def cubic(level, points):
    return Path(CUBIC, level, points)


def quadratic(level, points):
    return Path(QUADRATIC, level, points)


def straight(segments, level=0, start=(), move=(1,), degree=CUBIC):
    """A path whose points all lie one move apart."""
    start, move = point(*start), point(*move)
    return Path(degree, level,
                [tuple(value + i * by for value, by in zip(start, move))
                 for i in range(points_in(degree, segments))])


def zigzag(segments, level, *move, degree=CUBIC):
    """A path that goes there and back again."""
    there = point(*move)
    return Path(degree, level, [there if i % 2 else point()
                                for i in range(points_in(degree, segments))])


def jump(segments, after, *move, degree=CUBIC):
    """A path that stands still but for one move, after the named point."""
    there = point(*move)
    return Path(degree, 0, [there if i > after else point()
                            for i in range(points_in(degree, segments))])


# Sheets and number lists

def sheet(*paths):
    return sheet_bytes(*LIMITS, paths)


def number_list(*paths):
    return sheet_numbers(*LIMITS, paths)


# Of each degree as many paths as a sheet may have, at every level: of cubics
# there is room for 1,023, in 12 + 32 * 1,023 bytes, 32,748; quadratics may be
# as many as are counted, 1,024, in 12 + 26 * 1,024 bytes, 26,636.
LEVELS = SHEET_FINEST + 1


def many(number, degree):
    return [straight(1, k % LEVELS, (k, -k, 2 * k), (0, k % 5, k % 7), degree)
            for k in range(number)]


MANY = many(MOST_PATHS - 1, CUBIC)
MOST_QUADRATICS = many(MOST_PATHS, QUADRATIC)

# The paths of a longest sheet, 46 with 1,784 segments together: a path of S
# segments has an offset and a record, 14 + 18 * S bytes. They are 32,768.
LONGEST_SEGMENTS = [MOST_SEGMENTS] * 27 + [3] * 18 + [2]
LONGEST = sheet(*map(straight, LONGEST_SEGMENTS))

# One of quadratics, each 14 + 12 * S bytes: 46 with 2,676 segments together.
LONGEST_QUADRATICS = [straight(segments, degree=QUADRATIC) for segments in
                      [MOST_SEGMENTS] * 41 + [11, 11, 10, 10, 10]]
