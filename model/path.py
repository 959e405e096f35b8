"""The model's paths: the point list of a path, and its length.

A path is its shape, its limits (upper, lower) and its points, which come in
as their numbers.
"""
from collections import namedtuple

from model.constants import COORDINATES, ENTRY_NUMBERS
from model.drawing import (STEP, chosen, last_position, operate, shown,
                           started)
from model.points import flat, numbers_in, points_of
from model.rules import (demand, demand_finest, demand_level, demand_limits,
                         demand_points, demand_segments, refusal_or)

Shape = namedtuple("Shape", "degree segments finest level")
Entry = namedtuple("Entry", ("position", *COORDINATES))


# Entries of an accepted path

def segment_points(degree, points, k):
    """Segment k of degree D uses points Dk to Dk + D."""
    return points[degree * k:degree * (k + 1) + 1]


def segment_entries(shape, limits, points, k):
    """Segment k: its start, and the point after each step."""
    degree, _, finest, level = shape
    drawing = started(degree, segment_points(degree, points, k), finest, level)
    end = last_position(finest)
    entries = [Entry(end * k, *shown(drawing))]
    while drawing.q != end:
        operation = chosen(drawing, *limits)
        refusal, drawing = operate(operation, drawing)
        assert refusal == 0, "the chosen operation is never refused"
        if operation == STEP:
            entries.append(Entry(end * k + drawing.q, *shown(drawing)))
    return entries


def path_entries(shape, limits, points):
    """The whole list: a join stands once, as the end of the earlier one."""
    entries = [Entry(0, *points[0])]
    for k in range(shape.segments):
        start, *others = segment_entries(shape, limits, points, k)
        assert start == entries[-1], "the join is one entry"
        entries += others
    return entries


def length(entries):
    """Of the moves in x and y; the width takes no part."""
    total = 0
    for here, there in zip(entries, entries[1:]):
        moves = abs(there.x - here.x), abs(there.y - here.y)
        assert max(moves) <= 1, "neighbouring points differ by at most 1"
        total += (0, 1_000, 1_414)[sum(moves)]
    return total


# Refusals: 14, 24, 1, 2, 3, 4, and 9 where there is a list

def accepted_points(shape, limits, numbers):
    """The points of a path that may be refused. 14, 24, 1, 2, 3, 4."""
    degree, segments, finest, level = shape
    demand_segments(segments)
    demand(len(numbers) == numbers_in(degree, segments), 14)
    demand_finest(finest)
    points = points_of(numbers)
    demand_points(points, degree, finest)
    demand_level(level, finest)
    demand_limits(*limits)
    return points


def accepted_entries(shape, limits, numbers):
    return path_entries(shape, limits,
                        accepted_points(shape, limits, numbers))


def fitting_entries(room, *path):
    entries = accepted_entries(*path)
    demand(ENTRY_NUMBERS * len(entries) <= room, 9)
    return entries


def draw(room, shape, limits, numbers):
    """The refusal, the number of points, the length, and the numbers written.

    room is the length of the lent list.
    """
    refusal, entries = refusal_or([], fitting_entries, room, shape, limits,
                                  numbers)
    return refusal, len(entries), length(entries), flat(entries)


def measure(shape, limits, numbers):
    """The refusal, the number of points and the length."""
    refusal, entries = refusal_or([], accepted_entries, shape, limits,
                                  numbers)
    return refusal, len(entries), length(entries)
