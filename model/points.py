"""Points, and the numbers that they are written as: x, y, width and so on."""
from collections import namedtuple

from model.constants import COORDINATES, POINT_NUMBERS

Point = namedtuple("Point", COORDINATES)


def points_in(degree, segments):
    return degree * segments + 1


def numbers_in(degree, segments):
    """How many numbers the points of so many segments are."""
    return POINT_NUMBERS * points_in(degree, segments)


def segments_of(degree, points):
    return (len(points) - 1) // degree


def flat(rows):
    """The numbers of points or of entries, one after another."""
    return [number for row in rows for number in row]


def points_of(numbers):
    """The points, of their numbers one after another."""
    return [Point(*row) for row in zip(*[iter(numbers)] * POINT_NUMBERS)]
