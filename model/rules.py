"""Refusals, and the rules that several parts of the model share."""
from model.constants import (FARTHEST, HIGHEST, LEAST_FINEST, LOWEST,
                             MOST_FINEST, MOST_SEGMENTS, ONE_UNIT)


class Refused(Exception):
    """Its only argument is a number of the table "Refusal numbers"."""


def demand(condition, number):
    if not condition:
        raise Refused(number)


def refusal_or(otherwise, answer, *arguments):
    """0 and the answer to the arguments, or its refusal and the other one."""
    try:
        return 0, answer(*arguments)
    except Refused as refused:
        return refused.args[0], otherwise


def demand_limits(upper, lower):
    demand(1 <= upper <= ONE_UNIT and 0 <= lower <= upper, 4)


def demand_segments(segments):
    demand(1 <= segments <= MOST_SEGMENTS, 14)


# The finest level F: 2^F is reckoned only where F is known to be one

def is_finest(finest):
    return LEAST_FINEST <= finest <= MOST_FINEST


def is_level(level, finest):
    return 0 <= level <= finest


def reach(degree, finest):
    """How far apart neighbours may be in each coordinate."""
    return min(FARTHEST[degree], (2**finest - 2) // degree)


def demand_finest(finest):
    demand(is_finest(finest), 24)


def demand_level(level, finest):
    demand(is_level(level, finest), 3)


def demand_points(points, degree, finest):
    """1 over all the points, and only then 2."""
    for point in points:
        demand(all(LOWEST <= value <= HIGHEST for value in point), 1)
    for pair in zip(points, points[1:]):
        demand(all(abs(there - here) <= reach(degree, finest)
                   for here, there in zip(*pair)), 2)
