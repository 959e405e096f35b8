"""Where the numbers of a sheet stand: in its bytes, and in its number list.

A place in the bytes is (first byte, form), the form as struct has it. A place
in the list is an index.
"""
import struct

from model.constants import POINT_NUMBERS
from model.sheet import HEADER_NUMBERS, records_start

COUNT, UPPER, LOWER = (0, "I"), (4, "I"), (8, "I")
LISTED_COUNT, LISTED_UPPER, LISTED_LOWER = 0, 1, 2


def offset(k):
    return records_start(k), "I"


class PathPlaces:
    """Where one path starts and ends, and the places of its numbers."""

    def __init__(self, start, end, segments, mark, numbers):
        self.start, self.end = start, end
        self.segments, self.mark, self.numbers = segments, mark, numbers

    def x(self, point):
        return self.numbers[POINT_NUMBERS * point]

    def y(self, point):
        return self.numbers[POINT_NUMBERS * point + 1]

    def width(self, point):
        return self.numbers[POINT_NUMBERS * point + 2]


def record_places(paths):
    """The places of each path in the sheet's bytes."""
    places, start = [], records_start(len(paths))
    for path in paths:
        end = start + 4 + 2 * POINT_NUMBERS * len(path.points)
        numbers = [(first, "h") for first in range(start + 4, end, 2)]
        places.append(PathPlaces(start, end, (start, "H"), (start + 2, "H"),
                                 numbers))
        start = end
    return places


def listed_places(paths):
    """The places of each path in the sheet's number list."""
    places, start = [], HEADER_NUMBERS
    for path in paths:
        end = start + 2 + POINT_NUMBERS * len(path.points)
        places.append(PathPlaces(start, end, start, start + 1,
                                 range(start + 2, end)))
        start = end
    return places


def put(data, *changes):
    """The sheet with each (place, value) written over it."""
    data = bytearray(data)
    for (first, form), value in changes:
        struct.pack_into("<" + form, data, first, value)
    return bytes(data)


def swap(listed, *changes):
    """The number list with each (place, value) written over it."""
    listed = list(listed)
    for place, value in changes:
        listed[place] = value
    return listed
