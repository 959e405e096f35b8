"""What is made by chance: degrees, levels, walks of points, sheets, and damage
to them.

It comes from the random.Random that is handed in, so that a seed decides it.
"""
from itertools import product

from makers import LIMITS, point
from model.constants import (CUBIC, DEGREES, FARTHEST, HIGHEST, LEAST,
                             LEAST_FINEST, LOWEST, MOST, MOST_FINEST,
                             MOST_SEGMENTS, ONE_UNIT, POINT_NUMBERS, QUADRATIC,
                             QUADRATIC_MARK, SHEET_FINEST)
from model.points import points_in
from model.rules import reach
from model.sheet import Path


def one_in(chance, number):
    return chance.randrange(number) == 0


def clamped(value, least, most):
    return min(max(value, least), most)


# Degrees, finest levels, and levels

def random_degree(chance):
    return chance.choice(DEGREES)


def other_degree(degree):
    return QUADRATIC if degree == CUBIC else CUBIC


FINEST_LEVELS = range(LEAST_FINEST, MOST_FINEST + 1)


def random_finest(chance):
    """Each of them often, and the ends more often."""
    return chance.choice([LEAST_FINEST, MOST_FINEST, MOST_FINEST,
                          *FINEST_LEVELS])


def random_level(chance, finest):
    return chance.randint(0, finest)


# Points whose neighbours are near enough

CORNERS = list(product([LOWEST, HIGHEST], repeat=POINT_NUMBERS))


def random_start(chance):
    """A first point: 0, anywhere, or at the ends of the range."""
    anywhere = [chance.randint(LOWEST, HIGHEST) for _ in range(POINT_NUMBERS)]
    return chance.choice([point(), tuple(anywhere), chance.choice(CORNERS)])


def random_walk(chance, start, number, farthest):
    """So many points; farthest() is how far the next may be in x and in y,
    and how far in width."""
    points = []
    for _ in range(number):
        points.append(start)
        of_place, of_width = farthest()
        far = of_place, of_place, of_width
        start = tuple(clamped(value + chance.randint(-most, most), LOWEST,
                              HIGHEST) for value, most in zip(start, far))
    return points


def random_points(chance, degree, segments, finest):
    """Of so many segments: all of them near together or all far apart, and so
    the widths by themselves."""
    most = reach(degree, finest)
    farthest = [min(each, most) for each in
                chance.choices([0, 1, 3, 3, 20, 20, 100, most], k=2)]
    return random_walk(chance, random_start(chance),
                       points_in(degree, segments), lambda: farthest)


# Good sheets, and what they are made of

GOOD_LIMITS = [(1, 0), (1, 1), (ONE_UNIT, 0), (ONE_UNIT, ONE_UNIT),
               (40_000, 20)]


def random_limits(chance):
    """Upper and lower: those of most tests, ones at the ends, or any."""
    upper = chance.randint(1, ONE_UNIT)
    return chance.choice([LIMITS, chance.choice(GOOD_LIMITS),
                          (upper, chance.randint(0, upper))])


def random_path(chance):
    """A path of 1 or 2 segments, at times near the ends."""
    degree = random_degree(chance)
    points = random_walk(chance, random_start(chance),
                         points_in(degree, chance.randint(1, 2)),
                         lambda: chance.choices([3, FARTHEST[degree]], k=2))
    return Path(degree, random_level(chance, SHEET_FINEST), points)


def random_sheet(chance):
    """Upper, lower and up to 3 paths."""
    upper = chance.randint(1, ONE_UNIT)
    paths = [random_path(chance) for _ in range(chance.randint(0, 3))]
    return upper, chance.randint(0, upper), paths


# Damage

def strange_byte(chance):
    return chance.choice([0, 1, 2, SHEET_FINEST, SHEET_FINEST + 1,
                          MOST_SEGMENTS, MOST_SEGMENTS + 1, 127, 128, 255,
                          chance.randrange(256)])


def strange_number(chance):
    return chance.choice([-1, 0, 1, 2, 3, SHEET_FINEST, SHEET_FINEST + 1,
                          MOST_SEGMENTS, MOST_SEGMENTS + 1, FARTHEST[CUBIC],
                          FARTHEST[CUBIC] + 1, FARTHEST[QUADRATIC],
                          FARTHEST[QUADRATIC] + 1, HIGHEST, HIGHEST + 1,
                          LOWEST, LOWEST - 1, ONE_UNIT, MOST, LEAST,
                          chance.randint(-700, 700), strange_mark(chance)])


def strange_mark(chance):
    """At the ends of what marks a quadratic's level, or that level with more
    added than 256, or taken off."""
    level = random_level(chance, SHEET_FINEST)
    return chance.choice([QUADRATIC_MARK - 1, QUADRATIC_MARK,
                          QUADRATIC_MARK + SHEET_FINEST,
                          QUADRATIC_MARK + SHEET_FINEST + 1,
                          *[level + times * QUADRATIC_MARK
                            for times in (-1, 1, 2, 3, 255, 257)]])


def damage(chance, values, strange):
    """One value changed, values cut off or taken out, or values added."""
    values = list(values)
    place = chance.randrange(len(values))
    kind = chance.randrange(8)
    if kind == 0:
        return values[:place]
    if kind == 1:
        return values + [strange(chance) for _ in range(chance.randint(1, 4))]
    if kind == 2:
        del values[place]
    elif kind == 3:
        values.insert(place, strange(chance))
    else:
        values[place] = strange(chance)
    return values
