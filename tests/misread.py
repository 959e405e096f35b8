"""Requests that tell a program which takes 11 for their finest level F.

F comes in with a start, a path or a drawing. TELLING has what has to come out
of many requests, by the name of the entry:

    F = 6           accepted; for F = 5 and F = 13, refused for F alone
    6, by 11 0      the first rule that is broken, and the first one that is
                    broken with 11 in the place of F; 0 for none
    ..., quadratic  by a quadratic path

A path that is only measured tells by its count, where the upper limit is small
enough to make F felt.
"""
from chance import FINEST_LEVELS
from model.constants import (LEAST_FINEST, MOST_FINEST, POINT_NUMBERS,
                             QUADRATIC, SHEET_FINEST)
from model.drawing import OPERATIONS, chosen, last_position, step_size
from model.path import accepted_points
from model.rules import is_finest, is_level, reach, refusal_or
from probe_model import OPERATION_NAMES, answer, path_of, with_limits
from probe_protocol import (DEGREE_PLACE, DRAWING_WORDS, POINTS_START,
                            START_DEGREE, degree_of, drawing_of, unsigned)

TAKEN = SHEET_FINEST        # for F, by such a program


def at(finest):
    return f"F = {finest}"


def instead(right, wrong):
    return f"{right}, by {TAKEN} {wrong}"


def of_quadratic(one):
    return f"{one}, quadratic"


def of_both(ones):
    return ones | set(map(of_quadratic, ones))


def by_degree(name, words, one):
    """What comes of a path, as it is called for its degree."""
    if name in DEGREE_PLACE and degree_of(name, words) == QUADRATIC:
        return of_quadratic(one)
    return one


AT = {at(finest) for finest in range(LEAST_FINEST - 1, MOST_FINEST + 2)}

# Of starts and paths

AT_REACH, BY_FARTHEST = "0 at the reach of F", "2 for any F"
BEFORE_24 = "14 before 24"
JOINED, MEASURED = "a join by another F", "another count by another F"
CURVES = AT | {instead(24, 1), instead(2, 0), instead(3, 0), instead(0, 3),
               AT_REACH, BY_FARTHEST}
PATHS = CURVES | {BEFORE_24}

# Of drawings

LEVEL, PAST, BETWEEN = "10 by level", "10 past the end", "10 between steps"
PAIRS = [pair for fault in (LEVEL, PAST, BETWEEN, 5)
         for pair in [(fault, 0), (0, fault)]]
PLACES = AT | {instead(*pair) for pair in PAIRS}
CHOICES = {instead("halve", "step"), instead("step", "halve"),
           instead("double", "step"), instead("step", "double")}

TELLING = {
    "start": CURVES,
    "start_quadratic": CURVES,
    "halve": PLACES | {instead(6, 0), instead(0, 6)},
    "double": PLACES | {instead(8, 0), instead(0, 8)},
    "step": PLACES,
    "next": PLACES | CHOICES,
    "draw": of_both(PATHS | {JOINED}),
    "measure": of_both(PATHS | {MEASURED}),
    "draw_standard": of_both(PATHS | {JOINED}),
    "measure_standard": of_both(PATHS | {MEASURED}),
    "next_standard": PLACES | CHOICES,
}


# F among the words

FINEST_PLACE = {"start": -2, "start_quadratic": -2, "draw": 3, "measure": 2,
                "draw_standard": 3, "measure_standard": 2}


def finest_of(name, words):
    return unsigned(words[FINEST_PLACE.get(name, 0)])


def with_finest(name, words, finest):
    words = list(words)
    words[FINEST_PLACE.get(name, 0)] = finest
    return words


def answer_by(finest, name, words):
    return answer(name, with_finest(name, words, finest))


# Starts and paths

def refusal_of(name, words):
    """The first rule that is broken, without 9."""
    if name in START_DEGREE:
        return answer(name, words)[0]
    name, words = with_limits(name, words)
    path = words[1:] if name == "draw" else words
    return refusal_or(None, accepted_points, *path_of(path))[0]


def widest_gap(name, words):
    numbers = words[POINTS_START[name]:]
    if name in START_DEGREE:
        numbers = words[:FINEST_PLACE[name]]
    return max(abs(there - here)
               for here, there in zip(numbers, numbers[POINT_NUMBERS:]))


def told_by_refusal(name, words):
    finest, refusal = finest_of(name, words), refusal_of(name, words)
    by_taken = refusal_of(name, with_finest(name, words, TAKEN))
    if refusal != by_taken:
        yield instead(refusal, by_taken)
    if refusal == 24:
        yield at(finest)
    if refusal == 14 and not is_finest(finest):
        yield BEFORE_24
    if (refusal == 2 and degree_of(name, words) * widest_gap(name, words)
            <= 2**finest - 2):
        yield BY_FARTHEST


def told_by_curve(name, words, numbers):
    """Of a start or a path."""
    yield from told_by_refusal(name, words)
    finest = finest_of(name, words)
    if numbers[0] == 0:
        yield at(finest)
        if widest_gap(name, words) == reach(degree_of(name, words), finest):
            yield AT_REACH
        if finest != TAKEN:
            yield from told_by_list(name, words, numbers)


def told_by_list(name, words, numbers):
    if name in ("draw", "draw_standard") and words[FINEST_PLACE[name] - 1] > 1:
        yield JOINED
    if (name in ("measure", "measure_standard")
            and numbers != answer_by(TAKEN, name, words)):
        yield MEASURED


# Drawings

def place_fault(finest, level, q):
    """The first rule of level and q that is broken; 2^F has to be small."""
    if not is_level(level, finest):
        return LEVEL
    if q > last_position(finest):
        return PAST
    if q % step_size(finest, level) != 0:
        return BETWEEN
    return 5 if q == last_position(finest) else 0


def is_refused_for_finest(name, words):
    """Whether a drawing whose F is none would pass 10 with another F."""
    return any(answer_by(finest, name, words)[0] != 10
               for finest in FINEST_LEVELS)


def told_by_bad(name, words):
    """Where F is none: next to the good ones, its own 2^F is looked at."""
    finest, level, q = drawing_of(words[:DRAWING_WORDS])[:3]
    if (at(finest) in AT and place_fault(finest, level, q) == 0
            and is_refused_for_finest(name, words)):
        yield at(finest)


def after_place(name, words, finest):
    """What comes after level and q: 6, 7, 8 or 0, or the choice."""
    name, words = with_limits(name, words)
    drawing = drawing_of(words[:DRAWING_WORDS])._replace(finest=finest)
    if name == "next":
        return OPERATION_NAMES[chosen(drawing, *words[DRAWING_WORDS:])]
    operation = OPERATIONS[OPERATION_NAMES.index(name)]
    return refusal_or(None, operation, drawing)[0]


def told_by_drawing(name, words, numbers):
    finest, level, q = drawing_of(words[:DRAWING_WORDS])[:3]
    if not is_finest(finest):
        yield from told_by_bad(name, words)
        return
    refusal = numbers[0]
    if refusal == 0:
        yield at(finest)
    fault, by_taken = (place_fault(each, level, q) for each in (finest, TAKEN))
    if fault != by_taken and refusal != answer_by(TAKEN, name, words)[0]:
        yield instead(fault, by_taken)
    if fault == 0 and refusal != 4 and is_level(level, TAKEN):
        right, wrong = (after_place(name, words, one)
                        for one in (finest, TAKEN))
        if right != wrong:
            yield instead(right, wrong)


def told(name, words, numbers):
    """All that a request tells."""
    if name in FINEST_PLACE:
        return [by_degree(name, words, one)
                for one in told_by_curve(name, words, numbers)]
    return told_by_drawing(name, words, numbers) if name in TELLING else []
