"""Requests for the program `probe`, made by chance from a seed.

Each request is its bytes, and is answered by one line: probe_protocol.py has
the codes, and probe_model.py the answers.
"""
import random

from chance import one_in
from drawing_requests import (any_drawing, any_words, make_next,
                              make_operation, make_start)
from makers import LIMITS
from model.constants import CUBIC, LEAST, MOST, QUADRATIC, SHEET_FINEST
from model.points import numbers_in
from path_requests import (make_draw, make_draw_standard, make_measure,
                           make_measure_standard)
from probe_protocol import (CODES, DEGREE_PLACE, EXACT_WORDS, LEAST_WORDS,
                            MOST_ROOM, MOST_WORDS, NAMES, WITH_ROOM, packed,
                            raw_request, request)
from sheet_requests import make_read, make_write

MAKERS = {
    "start": lambda chance: make_start(chance, CUBIC),
    "halve": lambda chance: make_operation(chance, "halve"),
    "double": lambda chance: make_operation(chance, "double"),
    "step": lambda chance: make_operation(chance, "step"),
    "next": make_next,
    "shown": any_drawing,
    "draw": make_draw,
    "measure": make_measure,
    "read": make_read,
    "write": make_write,
    "draw_standard": make_draw_standard,
    "measure_standard": make_measure_standard,
    "next_standard": any_drawing,
    "start_quadratic": lambda chance: make_start(chance, QUADRATIC),
}


# Bad requests

UNUSED = max(NAMES) + 1         # the first code that there is not


def unknown_code(chance):
    code = chance.choice([0, UNUSED, UNUSED + 1, 256, -1, -2, MOST, LEAST])
    number = chance.choice([0, 0, 1, 5, 10, chance.randrange(50)])
    if one_in(chance, 100):
        number = MOST_WORDS
    return raw_request(code, any_words(chance, number))


def wrong_count(chance):
    name = chance.choice(list(CODES))
    if name in EXACT_WORDS:
        exact = EXACT_WORDS[name]
        number = chance.choice([0, exact - 1, exact + 1, exact + 10])
    else:
        number = chance.randrange(LEAST_WORDS[name])
    return request(name, any_words(chance, number))


def count_out_of_range(chance):
    code = chance.choice([0, UNUSED, chance.randint(1, UNUSED - 1)])
    count = chance.choice([MOST_WORDS + 1, -1, -10, 2**16, MOST, LEAST])
    return packed([code, count])


def room_out_of_range(chance):
    name = chance.choice(sorted(WITH_ROOM))
    words = MAKERS[name](chance)
    words[0] = chance.choice([MOST_ROOM + 1, -1, 2**16, MOST, LEAST])
    return request(name, words)


def no_degree(chance):
    name = chance.choice(sorted(DEGREE_PLACE))
    words = MAKERS[name](chance)
    words[DEGREE_PLACE[name]] = chance.choice([0, 1, 4, 5, -1, -2, -3, 258,
                                               2**16 + 3, MOST, LEAST,
                                               LEAST + 2])
    return request(name, words)


def bad_request(chance):
    maker = chance.choice([unknown_code, wrong_count, count_out_of_range,
                           room_out_of_range, no_degree])
    return maker(chance)


# All together

def good_request(chance, name):
    return request(name, MAKERS[name](chance))


def cut_off(chance):
    """A request without its end, which only the last of a run can be."""
    whole = chance.choice([good_request(chance, chance.choice(list(CODES))),
                           unknown_code(chance), wrong_count(chance)])
    most = len(whole) - 1
    return whole[:chance.choice([chance.randint(1, 7), min(8, most), most,
                                 chance.randint(1, most)])]


def make_requests(chance, number):
    """So many requests: each code in its turn, and bad ones among them."""
    names = list(CODES)
    requests = []
    while len(requests) < number:
        name = names[len(requests) % len(names)]
        if one_in(chance, 20):
            requests.append(bad_request(chance))
        else:
            requests.append(good_request(chance, name))
    return requests


def limit_requests():
    """As many words, and as much room, as a request may have."""
    numbers = [0] * (MOST_WORDS - 1)
    still = [QUADRATIC, 1, SHEET_FINEST, 0, *LIMITS,
             *[5] * numbers_in(QUADRATIC, 1)]
    return [request("write", [0, *numbers]),
            request("draw", [MOST_ROOM, *still])]


def make_batch(seed, number):
    """So many requests for one run; most times the last one is cut off."""
    chance = random.Random(seed)
    requests = make_requests(chance, number - 1)
    if one_in(chance, 4):
        return requests + make_requests(chance, 1)
    return requests + [cut_off(chance)]
