"""Requests that tell a program which misreads what order 10 says of degrees.

READINGS has wrong readings, each as what it puts in the place of which parts
of the model. A request tells of a reading where the model so changed answers
otherwise, or answers nothing: it may come to a list that is none. TELLING has
the readings that many requests have to tell of, by the name of the entry.
"""
from contextlib import ExitStack
from unittest.mock import patch

from model import drawing, path, points, rules, sheet
from model.constants import CUBIC, FARTHEST, QUADRATIC, QUADRATIC_MARK
from model.drawing import quadratic_coefficients
from model.rules import reach
from model.sheet import marked
from probe_model import answer
from probe_protocol import DEGREE_PLACE, degree_of

MOST_DRAWN = 100            # points of a path that is drawn again


# Neighbours

def reach_of_cubics(_, finest):
    return reach(CUBIC, finest)


def reach_of_quadratics(_, finest):
    return reach(QUADRATIC, finest)


def farthest_reach(degree, _):
    return FARTHEST[degree]


# Curves and paths

def b_doubled(*values):
    A, B, C, D = quadratic_coefficients(*values)
    return A, 2 * B, C, D


def c_of_a_cubic(*values):
    A, B, C, D = quadratic_coefficients(*values)
    return A, B, C // 2 * 3, D


def segment_by_cubics(degree, values, k):
    """From point 3k on; after the last one, that one again."""
    part = values[CUBIC * k:CUBIC * k + degree + 1]
    return part + values[-1:] * (degree + 1 - len(part))


def points_of_cubics(_, segments):
    return CUBIC * segments + 1


# Marks

def mark_kept(mark):
    return marked(mark)[0], mark


def low_byte(mark):
    return QUADRATIC if mark >= QUADRATIC_MARK else CUBIC, mark % 256


def marks_from_257(mark):
    return (CUBIC, mark) if mark == QUADRATIC_MARK else marked(mark)


def mark_cut(mark):
    return marked(mark % 2**16)


def without_mark(_, level):
    return level


QUADRATIC_REACH = "a quadratic's reach by 3"
CUBIC_REACH = "a cubic's reach by 2"
ANY_REACH = "the same reach for every F"
B, C = "B doubled", "C = 3(p1 - p0)"
SEGMENTS, SIZE = "segment k from point 3k", "3S + 1 points"
KEPT, BYTE = "256 not taken off", "the level is the low byte"
FROM_257, CUT = "marks from 257 on", "a mark cut to 16 bits"
LOST = "a mark that is lost"

READINGS = {
    QUADRATIC_REACH: [(rules, "reach", reach_of_cubics)],
    CUBIC_REACH: [(rules, "reach", reach_of_quadratics)],
    ANY_REACH: [(rules, "reach", farthest_reach)],
    B: [(drawing, "quadratic_coefficients", b_doubled)],
    C: [(drawing, "quadratic_coefficients", c_of_a_cubic)],
    SEGMENTS: [(path, "segment_points", segment_by_cubics)],
    SIZE: [(points, "points_in", points_of_cubics),
           (sheet, "points_in", points_of_cubics)],
    KEPT: [(sheet, "marked", mark_kept)],
    BYTE: [(sheet, "marked", low_byte)],
    FROM_257: [(sheet, "marked", marks_from_257)],
    CUT: [(sheet, "marked", mark_cut)],
    LOST: [(sheet, "mark_of", without_mark)],
}

CURVES = {QUADRATIC_REACH, ANY_REACH, B, C}
PATHS = CURVES | {CUBIC_REACH, SEGMENTS, SIZE}
SHEETS = {QUADRATIC_REACH, CUBIC_REACH, SIZE, KEPT, BYTE, FROM_257, LOST}

TELLING = {
    "start": {CUBIC_REACH},
    "start_quadratic": CURVES,
    **{name: PATHS for name in DEGREE_PLACE},
    "read": SHEETS,
    "write": SHEETS | {CUT},
}


def misread_answer(reading, name, words):
    """The numbers of the answer, or None where there are none."""
    with ExitStack() as changes:
        for module, part, wrong in READINGS[reading]:
            changes.enter_context(patch.object(module, part, wrong))
        try:
            return answer(name, words)
        except AssertionError:
            return None


def is_looked_at(name, words, numbers):
    """Of the paths that are drawn only quadratics with a short list: a cubic
    that is accepted tells nothing, and long lists take their time."""
    if name not in DEGREE_PLACE or numbers[0] not in (0, 9):
        return True
    return (degree_of(name, words) == QUADRATIC
            and 0 < numbers[1] <= MOST_DRAWN)


def told(name, words, numbers):
    """The readings that a request tells of."""
    if not is_looked_at(name, words, numbers):
        return []
    return [reading for reading in sorted(TELLING.get(name, []))
            if misread_answer(reading, name, words) != numbers]
