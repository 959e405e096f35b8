"""Argument words for the probe's requests of paths, made by chance."""
from chance import (clamped, one_in, other_degree, random_degree,
                    random_finest, random_limits, random_points)
from drawing_requests import BAD_LIMITS, set_gap, spoil_coordinate
from finest_requests import bad_finest, bad_level, good_level
from model.constants import ENTRY_NUMBERS, MOST_SEGMENTS, STANDARD_LIMITS
from model.path import Shape, measure
from model.points import flat
from probe_protocol import MOST_ROOM
from spoilt import wraps

BAD_SEGMENTS = [0, MOST_SEGMENTS + 1, MOST_SEGMENTS + 2, 256, 65_537,
                wraps(32), wraps(32) + 1, 2**31, 2**32 - 1]


class Path:
    """A path as a request has it: any numbers."""

    def __init__(self, chance):
        self.degree = random_degree(chance)
        self.segments = chance.choice([1, 1, 1, 1, 2, 2, 3, 5])
        if one_in(chance, 150):
            self.segments = MOST_SEGMENTS
        self.finest = self.good = random_finest(chance)
        self.level = good_level(chance, self.finest)
        self.limits = random_limits(chance)
        self.numbers = flat(random_points(chance, self.degree, self.segments,
                                          self.finest))

    def spoil(self, chance):
        """One fault, of every kind that a path is refused for."""
        spoil = chance.choice([self.spoil_segments, self.resize,
                               self.change_degree,
                               self.spoil_coordinate, self.spoil_coordinate,
                               self.spoil_gap, self.spoil_gap,
                               self.spoil_level, self.spoil_level,
                               self.spoil_finest, self.spoil_finest,
                               self.spoil_limits])
        spoil(chance)

    def change_degree(self, _):
        """The points are those of the other degree."""
        self.degree = other_degree(self.degree)

    def spoil_segments(self, chance):
        self.segments = chance.choice([self.segments + 1,
                                       chance.choice(BAD_SEGMENTS)])

    def spoil_coordinate(self, chance):
        spoil_coordinate(chance, self.numbers)

    def spoil_gap(self, chance):
        set_gap(chance, self.numbers, self.degree, self.good)

    def spoil_level(self, chance):
        self.level = bad_level(chance, self.good)

    def spoil_finest(self, chance):
        """Often with what is refused before it, or after it."""
        self.finest = bad_finest(chance)
        if one_in(chance, 3):
            chance.choice([self.resize, self.spoil_coordinate])(chance)

    def spoil_limits(self, chance):
        self.limits = chance.choice(BAD_LIMITS)

    def resize(self, chance):
        """The points' numbers made more or fewer, at least 4."""
        if one_in(chance, 2):
            self.numbers += [0] * chance.choice([1, 2, 3, 9, 12])
        else:
            less = chance.choice([1, 2, 3, 4, 8])
            self.numbers = self.numbers[:max(len(self.numbers) - less, 4)]

    def room(self, chance):
        """Mostly small or exact for the list; seldom the most there is."""
        if one_in(chance, 60):
            return MOST_ROOM
        if one_in(chance, 5):
            return chance.choice([0, 1, 7, 8, 20, chance.randrange(100)])
        _, points, _ = measure(self.shape(), self.limits, self.numbers)
        more = chance.choice([0, 0, 0, 1, 20, 100, -1, -4, -5])
        return clamped(ENTRY_NUMBERS * points + more, 0, MOST_ROOM)

    def shape(self):
        return Shape(self.degree, self.segments, self.finest, self.level)

    def words(self):
        return [*self.shape(), *self.limits, *self.numbers]

    def words_without_limits(self):
        return [*self.shape(), *self.numbers]


def make_path(chance):
    path = Path(chance)
    for _ in range(chance.choice([0, 0, 0, 1, 1, 1, 2])):
        path.spoil(chance)
    return path


def make_draw(chance):
    path = make_path(chance)
    return [path.room(chance), *path.words()]


def make_draw_standard(chance):
    path = make_path(chance)
    path.limits = STANDARD_LIMITS
    return [path.room(chance), *path.words_without_limits()]


def make_measure(chance):
    return make_path(chance).words()


def make_measure_standard(chance):
    return make_path(chance).words_without_limits()
