"""Random drawings and paths of the model, of both degrees and at every finest
level F, held to the exact curve.

A curve is the arguments of a start: degree, points, F and level.
"""
import random
from fractions import Fraction
from itertools import accumulate, product

from chance import FINEST_LEVELS, random_level, random_limits, random_points
from model.constants import (CUBIC, DEGREES, LEAST, LEAST_FINEST, MOST,
                             ONE_UNIT, QUADRATIC)
from model.drawing import (DOUBLE, HALVE, STEP, chosen, coefficients,
                           last_position, operate, registers_of, shown, start,
                           started)
from model.path import Shape, path_entries
from model.points import Point, flat
from model.rules import reach

# Twice a distance from the exact curve is at most this, in 65,536ths: by F
TWICE_DISTANCES = {6: 191, 7: 383, 8: 767, 9: 1_535, 10: 3_071, 11: 6_143,
                   12: 12_287}

# The farthest from it that a cubic gets with all steps at level F, at its end:
# by F the control points of a coordinate and that distance in 65,536ths, from
# a search of all A and B (docs/PROOFS.md)
FARTHEST = {6: ([0, -19, 1, -19], 32), 7: ([0, -42, 0, -42], 64),
            8: ([0, -84, 0, -84], 128), 9: ([0, 86, -84, -227], 341),
            10: ([0, 285, -55, -363], 785), 11: ([0, 579, 1_126, 444], 1_626),
            12: ([0, 426, 426, -1], 3_255)}


def random_curves(chance, number):
    """So many for each degree and F."""
    for degree, finest in product(DEGREES, FINEST_LEVELS):
        for _ in range(number):
            yield (degree, random_points(chance, degree, 1, finest), finest,
                   random_level(chance, finest))


def extreme_curves():
    """All neighbours as far apart as they may be, in every way in x, and in y
    the other way; the width goes on and on."""
    for degree, finest in product(DEGREES, FINEST_LEVELS):
        far = reach(degree, finest)
        for ways in product([1, -1], repeat=degree):
            xs = [0, *accumulate(far * way for way in ways)]
            points = [(x, -x, k * far) for k, x in enumerate(xs)]
            yield degree, points, finest, 0


def check_start(tally):
    """Floors within each other give the same c as one floor of the sum."""
    for curve in random_curves(random.Random(10), 15):
        degree, points, _, level = curve
        drawing = started(*curve)
        for values, registers in zip(zip(*points), registers_of(drawing)):
            A, B, C, _ = (65_536 * value
                          for value in coefficients(degree, values))
            tally.equal(f"c of {values}", registers[2],
                        C + ((B + (A >> level)) >> level))


# Drawings

def exact(values, q, end):
    """The Bezier curve of these control points, of any degree, at q / end:
    neighbours are mixed so, again and again, till one is left."""
    mixed = values
    while len(mixed) > 1:
        mixed = [here * (end - q) + there * q
                 for here, there in zip(mixed, mixed[1:])]
    return Fraction(mixed[0], end ** (len(values) - 1))


def distance(points, drawing):
    """The largest one in a coordinate between the drawing and the curve."""
    place = drawing.q, last_position(drawing.finest)
    return max(abs(Fraction(registers[3], ONE_UNIT) - exact(values, *place))
               for values, registers in zip(zip(*points),
                                            registers_of(drawing)))


def by_choosing(chance, drawing):
    """Each answer on the way to the end."""
    limits = random_limits(chance)
    while drawing.q != last_position(drawing.finest):
        refusal, drawing = operate(chosen(drawing, *limits), drawing)
        yield refusal, drawing


def by_steps(drawing, level):
    """Each answer on the way to the end, with all steps at one level."""
    while drawing.q != last_position(drawing.finest):
        operation = HALVE if drawing.level < level else STEP
        refusal, drawing = operate(operation, drawing)
        yield refusal, drawing


def by_any_calls(chance, drawing):
    """The answers to some calls, which may be refused."""
    for _ in range(chance.choice([5, 50, 200])):
        refusal, drawing = operate(chance.choice([HALVE, DOUBLE, STEP, STEP]),
                                   drawing)
        yield refusal, drawing


def check_drawing(tally, curve, calls, refusals):
    """These calls lead along the curve, and no other refusal comes of them:
    none is 10, by registers outside 32 bits."""
    _, points, finest, _ = curve
    drawing = started(*curve)
    farthest, met = distance(points, drawing), set()
    tally.equal(f"{curve} at its start", farthest, 0)
    tally.holds(f"{curve} in 32 bits",
                all(LEAST <= register <= MOST
                    for register in flat(registers_of(drawing))))
    for refusal, drawing in calls(drawing):
        farthest = max(farthest, distance(points, drawing))
        met.add(refusal)
    tally.holds(f"{curve} near the exact curve",
                2 * farthest <= Fraction(TWICE_DISTANCES[finest], 65_536),
                farthest)
    tally.holds(f"refusals of {curve}", met <= refusals, met)
    if drawing.q == last_position(finest):
        tally.equal(f"{curve} at its end", shown(drawing), Point(*points[-1]))


def check_distance(tally):
    chance = random.Random(3)
    for curve in random_curves(chance, 6):
        check_drawing(tally, curve, lambda one: by_choosing(chance, one), {0})
    for curve in [*random_curves(chance, 20), *extreme_curves()]:
        check_drawing(tally, curve, lambda one: by_any_calls(chance, one),
                      {0, 5, 6, 7, 8})


def check_extremes(tally):
    """The whole way, with all steps at level F and with one at level 0."""
    for curve in extreme_curves():
        for level in (curve[2], 0):
            check_drawing(tally, curve, lambda one: by_steps(one, level), {0})


def check_farthest(tally):
    """Some drawings do get as far as they were seen to."""
    for finest, (values, farthest) in FARTHEST.items():
        points = [(value, value, value) for value in values]
        curve = CUBIC, points, finest, finest
        *_, (_, drawing) = by_steps(started(*curve), finest)
        tally.equal(f"{curve} at its end", distance(points, drawing),
                    Fraction(farthest, 65_536))


# Lists

def random_paths(chance, number):
    """So many for each degree and F: a shape, limits and points."""
    for degree, finest in product(DEGREES, FINEST_LEVELS):
        for _ in range(number):
            segments = chance.randint(1, 3)
            points = random_points(chance, degree, segments, finest)
            shape = Shape(degree, segments, finest,
                          random_level(chance, finest))
            yield shape, random_limits(chance), points


def touch(here, there):
    return abs(there.x - here.x) <= 1 and abs(there.y - here.y) <= 1


def extreme_paths():
    for degree, points, finest, level in extreme_curves():
        yield Shape(degree, 1, finest, level), (ONE_UNIT, 0), points


def check_lists(tally):
    """Neighbours touch in x and y, and positions rise from 0 to 2^F * S."""
    for path in [*random_paths(random.Random(9), 8), *extreme_paths()]:
        shape, *_ = path
        entries = path_entries(*path)
        tally.holds(f"the neighbours of {path} touch",
                    all(map(touch, entries, entries[1:])))
        positions = [entry.position for entry in entries]
        tally.equal(f"the positions of {path} rise", positions,
                    sorted(set(positions)))
        tally.equal(f"the first and the last one of {path}",
                    (positions[0], positions[-1]),
                    (0, 2**shape.finest * shape.segments))


def check_positions(tally):
    """Where upper is a whole unit, F changes nothing but positions: at level F
    no increment is larger, so that rule 1 never asks for a finer one."""
    chance = random.Random(99)
    for degree in DEGREES * 30:
        points = random_points(chance, degree, 2, LEAST_FINEST)
        shape = Shape(degree, 2, LEAST_FINEST,
                      random_level(chance, LEAST_FINEST))
        limits = ONE_UNIT, chance.randint(0, ONE_UNIT)
        here = path_entries(shape, limits, points)
        for finest in FINEST_LEVELS:
            there = path_entries(shape._replace(finest=finest), limits, points)
            times = 2 ** (finest - LEAST_FINEST)
            tally.equal(f"{points} by F = {finest}", there,
                        [entry._replace(position=times * entry.position)
                         for entry in here])


# Quadratics that are cubics too

def third(*points):
    """A third of these points together."""
    return tuple(sum(values) // 3 for values in zip(*points))


def as_cubics(points):
    """The cubics that are the same curves as a path's quadratics, whose
    coordinates are multiples of 3."""
    for p0, p1, p2 in zip(points[::2], points[1::2], points[2::2]):
        yield from (p0, third(p0, p1, p1), third(p1, p1, p2))
    yield points[-1]


def thrice(points):
    """About as far apart as these points, and multiples of 3."""
    return [tuple(3 * (value // 4) for value in point) for point in points]


def check_as_cubics(tally):
    """They start the same drawing, and have the same list."""
    chance = random.Random(1010)
    for finest in [*FINEST_LEVELS] * 8:
        segments = chance.randint(1, 3)
        level, limits = random_level(chance, finest), random_limits(chance)
        points = thrice(random_points(chance, QUADRATIC, segments, finest))
        elevated = list(as_cubics(points))
        tally.equal(f"start of {points}",
                    start(QUADRATIC, points[:3], finest, level),
                    start(CUBIC, elevated[:4], finest, level))
        tally.equal(f"list of {points}",
                    path_entries(Shape(QUADRATIC, segments, finest, level),
                                 limits, points),
                    path_entries(Shape(CUBIC, segments, finest, level),
                                 limits, elevated))
