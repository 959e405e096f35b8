"""What the program `probe` has to answer to a request, by the model."""
from model.constants import STANDARD_LIMITS
from model.drawing import DOUBLE, HALVE, STEP, choose, operate, shown, start
from model.path import Shape, draw, measure
from model.points import points_of
from model.sheet import read_sheet, write_sheet
from probe_protocol import (DRAWING_WORDS, POINTS_START, START_DEGREE,
                            UNUSED_BYTE, UNUSED_NUMBER, drawing_of, lent,
                            unsigned, words_of)

OPERATION_NAMES = "halve", "double", "step"     # 0, 1, 2, as choosing says


# The entries: argument words in, numbers of the answer out

def answer_start(name, words):
    *numbers, finest, level = words
    refusal, drawing = start(START_DEGREE[name], points_of(numbers),
                             unsigned(finest), unsigned(level))
    return [refusal] + words_of(drawing)


def answer_operation(operation, words):
    refusal, drawing = operate(operation, drawing_of(words))
    return [refusal] + words_of(drawing)


def answer_next(words):
    *numbers, upper, lower = words
    return choose(drawing_of(numbers), unsigned(upper), unsigned(lower))


def path_of(words):
    """A path as the model takes it: its shape, its limits, its numbers."""
    degree, segments, finest, level, upper, lower, *numbers = words
    return (Shape(degree, unsigned(segments), unsigned(finest),
                  unsigned(level)),
            (unsigned(upper), unsigned(lower)), numbers)


def answer_draw(words):
    room, *path = words
    *answer, entries = draw(room, *path_of(path))
    return answer + lent(entries, room, UNUSED_NUMBER)


def answer_measure(words):
    return measure(*path_of(words))


def answer_read(words):
    room, *contents = words
    data = bytes(word % 256 for word in contents)
    refusal, numbers = read_sheet(data, room)
    return [refusal, len(numbers)] + lent(numbers, room, UNUSED_NUMBER)


def answer_write(words):
    room, *numbers = words
    refusal, data = write_sheet(numbers, room)
    return [refusal, len(data)] + lent(data, room, UNUSED_BYTE)


ENTRIES = {
    "start": lambda words: answer_start("start", words),
    "halve": lambda words: answer_operation(HALVE, words),
    "double": lambda words: answer_operation(DOUBLE, words),
    "step": lambda words: answer_operation(STEP, words),
    "next": answer_next,
    "shown": lambda words: shown(drawing_of(words)),
    "draw": answer_draw,
    "measure": answer_measure,
    "read": answer_read,
    "write": answer_write,
    "start_quadratic": lambda words: answer_start("start_quadratic", words),
}

# The entries without limits: which one each of them is, and where its limits
# would stand
STANDARD = {
    "draw_standard": ("draw", POINTS_START["draw_standard"]),
    "measure_standard": ("measure", POINTS_START["measure_standard"]),
    "next_standard": ("next", DRAWING_WORDS),
}


def with_limits(name, words, standard=STANDARD_LIMITS):
    """The entry and the words that a request without limits stands for."""
    if name not in STANDARD:
        return name, words
    name, place = STANDARD[name]
    return name, [*words[:place], *standard, *words[place:]]


def answer(name, words, standard=STANDARD_LIMITS):
    """The numbers of the answer."""
    name, words = with_limits(name, words, standard)
    return ENTRIES[name](words)
