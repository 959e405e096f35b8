"""The model's drawing: the exact curve, its registers and their operations.

A drawing is its finest level F, a level, a position q, and the registers
(a, b, c, d) of each coordinate: x, y and the width. Each operation hands a
drawing back; a refused one hands back the drawing that it was given.
"""
from collections import namedtuple
from fractions import Fraction
from math import floor

from model.constants import (COORDINATES, CUBIC, LEAST, MOST, ONE_UNIT,
                             POINT_NUMBERS)
from model.points import Point
from model.rules import (demand, demand_finest, demand_level, demand_limits,
                         demand_points, is_finest, is_level, refusal_or)

HALVE, DOUBLE, STEP = 0, 1, 2       # the answers of choosing

Drawing = namedtuple("Drawing", ("finest", "level", "q", *COORDINATES))
STILL = 0, 0, 0, 0                  # registers of a coordinate that stays at 0
ZEROS = Drawing(0, 0, 0, *[STILL] * POINT_NUMBERS)


def registers_of(drawing):
    """a, b, c and d of each coordinate."""
    return drawing[-POINT_NUMBERS:]


def last_position(finest):
    """The end of a segment: q counts 2^F-ths of the parameter."""
    return 2**finest


def step_size(finest, level):
    """s, which one step adds to q."""
    return 2 ** (finest - level)


# The exact curve, and a start

def cubic_coefficients(p0, p1, p2, p3):
    C = 3 * (p1 - p0)
    B = 3 * (p2 - 2 * p1 + p0)
    A = p3 - 3 * p2 + 3 * p1 - p0
    D = p0
    return A, B, C, D


def quadratic_coefficients(p0, p1, p2):
    C = 2 * (p1 - p0)
    B = p2 - 2 * p1 + p0
    A = 0
    D = p0
    return A, B, C, D


def coefficients(degree, points):
    """A, B, C and D of one coordinate."""
    if degree == CUBIC:
        return cubic_coefficients(*points)
    return quadratic_coefficients(*points)


def whole(value):
    assert value.denominator == 1
    return value.numerator


def start_registers(degree, points, level):
    """One coordinate's registers at the start."""
    A, B, C, D = coefficients(degree, points)
    delta = Fraction(1, 2**level)
    d = ONE_UNIT * D
    a = whole(ONE_UNIT * 6 * A * delta)
    b = whole(ONE_UNIT * (6 * A * delta + 2 * B))
    c = floor(ONE_UNIT * (C + B * delta + A * delta**2))
    return a, b, c, d


def started(degree, points, finest, level):
    """The drawing of an accepted start."""
    return Drawing(finest, level, 0, *(start_registers(degree, values, level)
                                       for values in zip(*points)))


def begun(degree, points, finest, level):
    """24, 1 over all points, 2, 3."""
    demand_finest(finest)
    demand_points(points, degree, finest)
    demand_level(level, finest)
    return started(degree, points, finest, level)


def start(degree, points, finest, level):
    """The refusal and the drawing."""
    return refusal_or(ZEROS, begun, degree, points, finest, level)


# The operations: new registers of one coordinate from its old ones

def step_registers(level, registers):
    a, b, c, d = registers
    return a, b + a, c + (b >> level), d + (c >> level)


def halve_registers(level, registers):
    a, b, c, d = registers
    half = a >> 1
    new_b = b - half
    return half, new_b, c - (new_b >> (level + 2)), d


def double_registers(level, registers):
    a, b, c, d = registers
    return 2 * a, b + a, c + (b >> (level + 1)), d


# The operations: 10 by F, level and q, 5, then 6 or 7 then 8, 10 by registers

def demand_place(drawing):
    """10 by F first, then by level and q; then 5."""
    finest, level, q = drawing.finest, drawing.level, drawing.q
    demand(is_finest(finest), 10)
    demand(is_level(level, finest), 10)
    end = last_position(finest)
    demand(0 <= q <= end and q % step_size(finest, level) == 0, 10)
    demand(q != end, 5)


def demand_registers(drawing):
    """10 by registers."""
    values = sum(registers_of(drawing), ())
    demand(LEAST <= min(values) and max(values) <= MOST, 10)


def turned(turn, drawing, level, q):
    """The drawing there, its coordinates turned at the level they are at."""
    return Drawing(drawing.finest, level, q,
                   *[turn(drawing.level, registers)
                     for registers in registers_of(drawing)])


def is_in_line(drawing):
    """Whether q is a multiple of 2s."""
    return drawing.q % (2 * step_size(drawing.finest, drawing.level)) == 0


def halved(drawing):
    demand(drawing.level != drawing.finest, 6)
    return turned(halve_registers, drawing, drawing.level + 1, drawing.q)


def doubled(drawing):
    demand(drawing.level != 0, 7)
    demand(is_in_line(drawing), 8)
    return turned(double_registers, drawing, drawing.level - 1, drawing.q)


def stepped(drawing):
    return turned(step_registers, drawing, drawing.level,
                  drawing.q + step_size(drawing.finest, drawing.level))


OPERATIONS = {HALVE: halved, DOUBLE: doubled, STEP: stepped}


def operated(operation, drawing):
    demand_place(drawing)
    new = OPERATIONS[operation](drawing)
    demand_registers(new)
    return new


def operate(operation, drawing):
    """The refusal and the drawing handed back."""
    return refusal_or(drawing, operated, operation, drawing)


# The point shown

def shown_coordinate(registers):
    d = registers[3]
    return (d + ONE_UNIT // 2) // ONE_UNIT


def shown(drawing):
    return Point._make(map(shown_coordinate, registers_of(drawing)))


# Choosing the next operation, by x and y alone: 4, 10 by F, level and q, 5

def increment(level, registers):
    c = registers[2]
    return c >> level


def largest_increment(drawing):
    """The larger magnitude of the increments of x and y."""
    level = drawing.level
    return max(abs(increment(level, drawing.x)),
               abs(increment(level, drawing.y)))


def may_double(drawing, upper, lower):
    """Rule 2."""
    if largest_increment(drawing) >= lower:
        return False
    if drawing.level == 0 or not is_in_line(drawing):
        return False
    return largest_increment(doubled(drawing)) <= upper


def chosen(drawing, upper, lower):
    """The operation by the three rules, in their order."""
    if largest_increment(drawing) > upper and drawing.level < drawing.finest:
        return HALVE
    if may_double(drawing, upper, lower):
        return DOUBLE
    return STEP


def choice(drawing, upper, lower):
    demand_limits(upper, lower)
    demand_place(drawing)
    return chosen(drawing, upper, lower)


def choose(drawing, upper, lower):
    """The refusal and the operation, 0 under a refusal."""
    return refusal_or(0, choice, drawing, upper, lower)
