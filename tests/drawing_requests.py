"""Argument words for the probe's requests of one drawing, made by chance."""
from itertools import product

from chance import (clamped, one_in, other_degree, random_degree,
                    random_finest, random_level, random_limits, random_points)
from finest_requests import (any_level, any_position, bad_finest, bad_place,
                             before_end, telling_place)
from model.constants import (COORDINATES, FARTHEST, HIGHEST, LEAST, LOWEST,
                             MOST, MOST_FINEST, ONE_UNIT, POINT_NUMBERS,
                             SHEET_FINEST)
from model.drawing import (DOUBLE, HALVE, STEP, STILL, Drawing,
                           double_registers, doubled, halve_registers,
                           largest_increment, operate, start, step_registers)
from model.points import flat
from model.rules import reach
from probe_protocol import REGISTER_WORDS, drawing_of, words_of

EDGES = [MOST, MOST - 1, LEAST, LEAST + 1, 0, 1, -1, 32_767, 32_768, -32_768,
         -32_769, MOST - 32_768, MOST - 32_767]
BAD_COORDINATES = [HIGHEST + 1, LOWEST - 1, 32_767, 65_536, MOST, LEAST]
BAD_LIMITS = [(0, 0), (ONE_UNIT + 1, 0), (1, 2), (ONE_UNIT, ONE_UNIT + 1),
              (2**31, 0), (2**32 - 1, 2**32 - 1), (ONE_UNIT, 2**31),
              (ONE_UNIT, 2**32 - 1)]


# The numbers of control points

def set_gap(chance, numbers, degree, finest):
    """Neighbours as far apart as they may be, or one more, or far; at times as
    the other degree has it."""
    most, farthest = reach(degree, finest), FARTHEST[degree]
    gap = chance.choice([most, most + 1, most + 1,
                         reach(other_degree(degree), finest),
                         chance.randint(most + 1, farthest + 1), 2 * farthest,
                         9_000])
    gap *= chance.choice([1, -1])
    place = chance.randrange(POINT_NUMBERS, len(numbers))
    before = numbers[place - POINT_NUMBERS]
    if not LOWEST <= before + gap <= HIGHEST:
        gap = -gap
    shift = before + gap - numbers[place]
    for later in range(place, len(numbers), POINT_NUMBERS):
        numbers[later] += shift


def spoil_coordinate(chance, numbers):
    place = chance.randrange(len(numbers))
    numbers[place] = chance.choice(BAD_COORDINATES)


# Registers

def random_register(chance):
    size = chance.choice([8, 16, 20, 31])
    return chance.choice([chance.randrange(-2**size, 2**size),
                          chance.choice(EDGES)])


def any_words(chance, number):
    return [random_register(chance) for _ in range(number)]


def large_register(chance):
    """As a c it is past every upper limit, at every level."""
    return chance.choice([1, -1]) * chance.randrange(2**29, 2**31)


NEW_REGISTERS = {"halve": halve_registers, "double": double_registers,
                 "step": step_registers}


def inner_registers(chance):
    """Registers of which every new one is within 32 bits."""
    size = chance.choice([0, 8, 29])
    return [chance.randrange(-2**size, 2**size) for _ in STILL]


def edge_registers(chance, level, name):
    """Registers of which a new one is at the edge of 32 bits, or past it."""
    registers = inner_registers(chance)
    place = chance.randrange(len(STILL))
    edge = chance.choice([MOST, MOST + 1, LEAST, LEAST - 1])
    if place == 0:
        registers[0] = edge // 2
    else:
        new = NEW_REGISTERS[name](level, registers)
        registers[place] += edge - new[place]
    return [clamped(register, LEAST, MOST) for register in registers]


# Drawings from an accepted start

def reached(chance):
    """What random operations make of an accepted start."""
    degree, finest = random_degree(chance), random_finest(chance)
    refusal, drawing = start(degree, random_points(chance, degree, 1, finest),
                             finest, random_level(chance, finest))
    assert refusal == 0
    operations = chance.choice([[HALVE, DOUBLE, STEP, STEP],
                                [DOUBLE, STEP], [HALVE, STEP]])
    for _ in range(chance.choice([0, 1, 3, 10, 40])):
        _, drawing = operate(chance.choice(operations), drawing)
    return drawing


def reached_drawing(chance):
    return words_of(reached(chance))


def wide_drawing(chance):
    """The width's registers are made up, and most times its c is large."""
    a, b, c, d = any_words(chance, len(STILL))
    if not one_in(chance, 4):
        c = large_register(chance)
    return words_of(reached(chance)._replace(width=(a, b, c, d)))


# Drawings that are made up

def made_up_drawing(chance):
    finest = random_finest(chance)
    level = any_level(chance, finest)
    return [finest, level, any_position(chance, finest, level),
            *any_words(chance, REGISTER_WORDS)]


def drawing_at(chance, finest, level, q):
    """There, with every new register within 32 bits."""
    return Drawing(finest, level, q, *(inner_registers(chance)
                                       for _ in COORDINATES))


def drawing_before_end(chance, finest, level):
    return drawing_at(chance, finest, level, before_end(chance, finest, level))


def bad_drawing(chance):
    return words_of(drawing_at(chance, *bad_place(chance)))


def telling_drawing(chance):
    return words_of(drawing_at(chance, *telling_place(chance)))


def fast_drawing(chance):
    """At level F or 11, x or y has an increment past every upper limit."""
    finest = random_finest(chance)
    level = min(finest, chance.choice([finest, SHEET_FINEST]))
    drawing = drawing_before_end(chance, finest, level)
    fast = 0, 0, large_register(chance), 0
    return words_of(drawing._replace(**{chance.choice("xy"): fast}))


def slow_drawing(chance):
    """x and y are at rest: level and position alone decide on a double."""
    finest = random_finest(chance)
    drawing = drawing_before_end(chance, finest, random_level(chance, finest))
    return words_of(drawing._replace(x=STILL, y=STILL))


def edge_drawing(chance, name):
    """At least one coordinate is at the edge, often the width alone."""
    finest = random_finest(chance)
    level = random_level(chance, finest)
    q = before_end(chance, finest, level)
    _, width_alone, *others = product([False, True], repeat=POINT_NUMBERS)
    return [finest, level, q,
            *flat(edge_registers(chance, level, name) if moved
                  else inner_registers(chance)
                  for moved in chance.choice([width_alone, width_alone,
                                              *others]))]


# Requests

def make_start(chance, degree):
    finest = random_finest(chance)
    numbers = flat(random_points(chance, degree, 1, finest))
    level = any_level(chance, finest)
    if one_in(chance, 5):
        set_gap(chance, numbers, degree, finest)
    if one_in(chance, 5):
        spoil_coordinate(chance, numbers)
    if one_in(chance, 20):
        numbers = any_words(chance, len(numbers))
    if one_in(chance, 8):
        finest = bad_finest(chance)
    return [*numbers, finest, level]


def make_operation(chance, name):
    if one_in(chance, 4):
        return edge_drawing(chance, name)
    maker = chance.choice([reached_drawing, reached_drawing, reached_drawing,
                           made_up_drawing, bad_drawing, bad_drawing,
                           telling_drawing, telling_drawing])
    return maker(chance)


def any_drawing(chance):
    maker = chance.choice([reached_drawing, reached_drawing, wide_drawing,
                           made_up_drawing, bad_drawing, bad_drawing,
                           telling_drawing, telling_drawing, fast_drawing,
                           slow_drawing])
    return maker(chance)


def near_increments(chance, drawing):
    """Limits next to the increments, now or after doubling."""
    increments = [1]
    if drawing.level <= MOST_FINEST:
        increments.append(largest_increment(drawing))
    if 0 < drawing.level <= MOST_FINEST:
        in_line = drawing._replace(finest=MOST_FINEST, q=0)
        increments.append(largest_increment(doubled(in_line)))
    upper = chance.choice(increments) + chance.randint(-1, 1)
    lower = chance.choice(increments) + chance.randint(-1, 1)
    upper = clamped(upper, 1, ONE_UNIT)
    return upper, clamped(lower, 0, upper)


def make_next(chance):
    words = any_drawing(chance)
    kind = chance.randrange(8)
    if kind == 0:
        limits = chance.choice(BAD_LIMITS)
    elif kind <= 4:
        limits = near_increments(chance, drawing_of(words))
    else:
        limits = random_limits(chance)
    return [*words, *limits]
