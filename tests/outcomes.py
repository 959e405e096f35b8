"""What comes out of requests to the probe, by the model.

OUTCOMES has what has to come out of many requests at least once, by the name
of the entry: refusals (0 for none), and where that says too little, words. A
request has one such outcome, and beside it those by which it tells of its
finest level, its degree and the standard limits: misread.py and the two after
it have them.
"""
from itertools import combinations

import misread
import misread_degree
import misread_limits
from misread import (BETWEEN, LEVEL, PAST, by_degree, is_refused_for_finest,
                     of_quadratic, place_fault, refusal_of)
from model.constants import POINT_NUMBERS
from model.drawing import DOUBLE, HALVE, STEP, STILL, choose, registers_of
from model.rules import is_finest
from probe_model import OPERATION_NAMES, answer, with_limits
from probe_protocol import (BAD, DEGREE_PLACE, DRAWING_WORDS, POINTS_START,
                            drawing_of, fault_of, line, taken, words_of)
from spoilt import READ_REFUSALS, WRITE_REFUSALS

OF_FINEST, BESIDE = "10 by its finest level alone", "10 by F and more"
NO_FINEST = "0 without a finest level"
PLACE = {OF_FINEST, LEVEL, PAST, BETWEEN, 5}
OF_WIDTH = "10 by registers of the width alone"
REGISTERS = {"10 by registers", OF_WIDTH}
POINTS = {1, 2, "1 by a width alone", "2 by a width alone"}
CHOSEN = {"halve", "double", "step", "double past the width",
          "step past the width"}
RULES = {
    "start": {0, 24, 3} | POINTS,
    "start_quadratic": {0, 24, 3} | POINTS,
    "halve": {0, 6} | PLACE | REGISTERS,
    "double": {0, 7, 8} | PLACE | REGISTERS,
    "step": {0} | PLACE | REGISTERS,
    "next": {4} | PLACE | CHOSEN,
    "shown": {0, NO_FINEST},
    "draw": {0, 14, 24, 3, 4, 9} | POINTS,
    "measure": {0, 14, 24, 3, 4} | POINTS,
    "read": {0} | READ_REFUSALS,
    "write": {0} | WRITE_REFUSALS,
    "draw_standard": {0, 14, 24, 3, 9} | POINTS,
    "measure_standard": {0, 14, 24, 3} | POINTS,
    "next_standard": PLACE | CHOSEN,
    BAD: {"unknown code", "wrong count", "count out of range",
          "room out of range", "no degree", "cut off"},
}
QUADRATICS = {name: set(map(of_quadratic, RULES[name]))
              for name in DEGREE_PLACE}
TOLD = {"its finest level": misread.TELLING,
        "its degree": misread_degree.TELLING,
        "the standard limits": misread_limits.TELLING}
OUTCOMES = {name: wanted.union(*(each.get(name, set())
                                 for each in [QUADRATICS, *TOLD.values()]))
            for name, wanted in RULES.items()}


def refused_drawing(name, words):
    """By which numbers a drawing is refused 10."""
    drawing = drawing_of(words[:DRAWING_WORDS])
    if not is_finest(drawing.finest):
        alone = is_refused_for_finest(name, words)
        return OF_FINEST if alone else BESIDE
    fault = place_fault(drawing.finest, drawing.level, drawing.q)
    if fault:
        return fault
    at_rest = words_of(drawing._replace(width=STILL))
    return "10 by registers" if answer(name, at_rest)[0] == 10 else OF_WIDTH


def refused_points(name, words, refusal):
    """Whether points are refused 1 or 2 for their widths alone."""
    words = list(words)
    # What follows the points of a start is not long enough for a width.
    for place in range(POINTS_START[name] + POINT_NUMBERS - 1, len(words),
                       POINT_NUMBERS):
        words[place] = 0
    if refusal_of(name, words) == refusal:
        return refusal
    return f"{refusal} by a width alone"


def choice_of_three(drawing, upper, lower):
    """The wrong one: what the rules would choose if they saw the width."""
    choices = {choose(drawing._replace(x=one, y=other), upper, lower)[1]
               for one, other in combinations(registers_of(drawing), 2)}
    if HALVE in choices:
        return HALVE
    return DOUBLE if choices == {DOUBLE} else STEP


def choice_outcome(name, words, choice):
    _, (*words, upper, lower) = with_limits(name, words)
    if choice_of_three(drawing_of(words), upper, lower) == choice:
        return OPERATION_NAMES[choice]
    return OPERATION_NAMES[choice] + " past the width"


def outcome(name, words, numbers):
    """What came out, as it is called in RULES; of a quadratic path too."""
    refusal = numbers[0]
    if name == "shown":
        return 0 if is_finest(drawing_of(words).finest) else NO_FINEST
    if name in ("next", "next_standard") and refusal == 0:
        return choice_outcome(name, words, numbers[1])
    if name in POINTS_START and refusal in (1, 2):
        return refused_points(name, words, refusal)
    if refusal == 10:
        return refused_drawing(name, words)
    return refusal


def answered(request):
    """The answer line, and each (name, outcome) to be counted."""
    fault = fault_of(request)
    if fault:
        return BAD, [(BAD, fault)]
    name, words = taken(request)
    numbers = answer(name, words)
    ones = [by_degree(name, words, outcome(name, words, numbers)),
            *misread.told(name, words, numbers),
            *misread_degree.told(name, words, numbers),
            *misread_limits.told(name, words, numbers)]
    return line(numbers), [(name, one) for one in ones]


def missing(tally):
    """The outcomes that no request had yet."""
    return [(name, one) for name, wanted in OUTCOMES.items()
            for one in sorted(wanted, key=str) if not tally[name, one]]
