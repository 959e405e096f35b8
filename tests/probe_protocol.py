"""The probe's protocol: requests as bytes, and answers as lines.

A request is little-endian signed 32-bit words: code, count, then `count`
argument words. It is answered by one line of numbers. A word that stands for
an unsigned number is the same 32 bits.

    code               arguments                             answer
     1 start           points finest level                   refusal drawing
     2 halve           drawing                               refusal drawing
     3 double          drawing                               refusal drawing
     4 step            drawing                               refusal drawing
     5 next            drawing upper lower                   refusal operation
     6 shown           drawing                               x y width
     7 draw            room degree segments finest level     refusal points
                       upper lower points                    length list
     8 measure         degree segments finest level          refusal points
                       upper lower points                    length
     9 read            room byte...                          refusal count list
    10 write           room number...                        refusal count bytes
    11 draw_standard     as 7, without upper and lower
    12 measure_standard  as 8, without upper and lower
    13 next_standard     as 5, without upper and lower
    14 start_quadratic   as 1

Points are x, y and width of each; a start has four, of a quadratic three. A
degree is 2 or 3. A drawing is finest, level, q, then a b c d of x, of y and of
the width. The list and the bytes are the first `room` of a lent buffer after
the call; the buffer holds -7 (a list) or 7 (bytes) in every place before it.
The operations that are answered are 0 halve, 1 double, 2 step.

Any other request is answered by "bad request". Its words are passed over;
after a count out of range nothing is, so the next request starts there. A
request that the end of the input cuts off is a bad one, and the last.
"""
import struct

from model.constants import CUBIC, DEGREES, POINT_NUMBERS, QUADRATIC
from model.drawing import STILL, Drawing, registers_of
from model.points import flat, numbers_in

MOST_WORDS = 16_400
MOST_ROOM = 16_384
UNUSED_NUMBER, UNUSED_BYTE = -7, 7      # in a lent buffer before the call
BAD = "bad request"

CODES = {"start": 1, "halve": 2, "double": 3, "step": 4, "next": 5,
         "shown": 6, "draw": 7, "measure": 8, "read": 9, "write": 10,
         "draw_standard": 11, "measure_standard": 12, "next_standard": 13,
         "start_quadratic": 14}
NAMES = {code: name for name, code in CODES.items()}

REGISTER_WORDS = len(STILL) * POINT_NUMBERS
DRAWING_WORDS = 3 + REGISTER_WORDS
START_DEGREE = {"start": CUBIC, "start_quadratic": QUADRATIC}
START_NAMES = {degree: name for name, degree in START_DEGREE.items()}
DEGREE_PLACE = {"draw": 1, "measure": 0, "draw_standard": 1,
                "measure_standard": 0}
POINTS_START = {"start": 0, "draw": 7, "measure": 6, "draw_standard": 5,
                "measure_standard": 4, "start_quadratic": 0}
EXACT_WORDS = {"halve": DRAWING_WORDS, "double": DRAWING_WORDS,
               "step": DRAWING_WORDS, "next": DRAWING_WORDS + 2,
               "shown": DRAWING_WORDS, "next_standard": DRAWING_WORDS,
               **{name: numbers_in(degree, 1) + 2
                  for name, degree in START_DEGREE.items()}}
LEAST_WORDS = {"read": 1, "write": 1, **POINTS_START}
WITH_ROOM = {"draw", "read", "write", "draw_standard"}


# Words

def unsigned(word):
    return word % 2**32


def packed(words):
    """The 32 bits of each number, signed or unsigned."""
    return struct.pack(f"<{len(words)}I", *map(unsigned, words))


def whole_words(data):
    """The signed words of the bytes, without a last one that is cut off."""
    return struct.unpack_from(f"<{len(data) // 4}i", data)


def drawing_of(words):
    finest, level, q, *registers = words
    size = len(STILL)
    return Drawing(unsigned(finest), unsigned(level), unsigned(q),
                   *(tuple(registers[place:place + size])
                     for place in range(0, len(registers), size)))


def words_of(drawing):
    return [drawing.finest, drawing.level, drawing.q,
            *flat(registers_of(drawing))]


# Requests

def request(name, words):
    return raw_request(CODES[name], words)


def raw_request(code, words):
    return packed([code, len(words), *words])


def is_count_of(name, count):
    if name in EXACT_WORDS:
        return count == EXACT_WORDS[name]
    return count >= LEAST_WORDS[name]


def fault_of(data):
    """What is wrong with a request, or None."""
    words = whole_words(data)
    if len(words) < 2:
        return "cut off"
    code, count, *arguments = words
    if not 0 <= count <= MOST_WORDS:
        return "count out of range"
    if len(arguments) < count:
        return "cut off"
    assert len(data) == 8 + 4 * count, "one request at a time"
    name = NAMES.get(code)
    if name is None:
        return "unknown code"
    if not is_count_of(name, count):
        return "wrong count"
    if name in WITH_ROOM and not 0 <= arguments[0] <= MOST_ROOM:
        return "room out of range"
    if name in DEGREE_PLACE and degree_of(name, arguments) not in DEGREES:
        return "no degree"
    return None


def degree_of(name, words):
    """Of a start or of a path."""
    if name in START_DEGREE:
        return START_DEGREE[name]
    return words[DEGREE_PLACE[name]]


def taken(data):
    """The name and the argument words of a request without a fault."""
    code, _, *arguments = whole_words(data)
    return NAMES[code], arguments


def in_words(data):
    """Any request, for a reader."""
    words = whole_words(data)
    name = NAMES.get(words[0] if words else None, "?")
    rest = data[4 * len(words):].hex()
    return " ".join([name, *map(str, words), rest]).rstrip()


# Answers

def line(numbers):
    return " ".join(map(str, numbers))


def lent(written, room, unused):
    """The whole lent buffer after the call."""
    return list(written) + [unused] * (room - len(written))
