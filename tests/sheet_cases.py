"""Requests for the program `sheet_cases`, which reads and writes sheets, with
the model's answers; stored.py writes both to the program's folder.

A request is little-endian 32-bit words: code (1 read, 2 write), room, length;
then `length` bytes to read, or `length` numbers to write. Room is the length
of the lent buffer, which holds before the call what the probe's does.

An answer is one line: refusal, count, and the whole lent buffer afterwards,
as it is where room is at most 64, otherwise as its checksum.

The refusal of every request but the random ones stands here by hand, and the
model has to agree with it.
"""
import random
from collections import Counter

import mark_cases
import reading_cases
import writing_cases
from chance import (CORNERS, damage, random_sheet, strange_byte,
                    strange_number)
from document_cases import SHEET, SHEET_NUMBERS
from makers import (LEVELS, LIMITS, LONGEST_SEGMENTS, MANY, cubic, jump,
                    number_list, on_width, point, sheet, straight, zigzag)
from model.constants import (CUBIC, DEGREES, FARTHEST, HIGHEST, LOWEST,
                             MOST_BYTES, MOST_SEGMENTS, ONE_UNIT, QUADRATIC,
                             SHEET_FINEST)
from model.sheet import read_sheet, sheet_bytes, sheet_numbers, write_sheet
from places import LISTED_COUNT, swap
from probe_protocol import UNUSED_BYTE, UNUSED_NUMBER, lent, line, packed
from spoilt import (BENT, CURVED, ONE, ONE_LIST, PAIR, READ_REFUSALS,
                    WRITE_REFUSALS)

READ, WRITE = 1, 2
MOST_ROOM = 33_000          # and the most bytes to read
MOST_NUMBERS = 17_000       # to write
ROOM = 64                   # of most requests: up to here it is shown whole


# Requests and answers

def answer_line(refusal, written, room, unused):
    buffer = lent(written, room, unused)
    if room > ROOM:
        check = 1
        for value in buffer:
            check = (check * 31 + value) % 2**32
        buffer = [check]
    return line([refusal, len(written), *buffer])


class Cases:
    """The requests and answers gathered so far."""

    def __init__(self):
        self.requests, self.lines, self.tally = [], [], Counter()

    def add(self, code, room, length, content, refusal, answer):
        assert 0 <= room <= MOST_ROOM
        assert length <= (MOST_ROOM if code == READ else MOST_NUMBERS)
        self.requests.append(packed([code, room, length]) + content)
        self.lines.append(answer)
        self.tally[code, refusal] += 1

    def read(self, expected, data, room=ROOM):
        refusal, numbers = read_sheet(data, room)
        assert expected in (refusal, None), (expected, refusal, data.hex())
        if refusal == 0:  # a sheet that is read is written back the same
            assert write_sheet(numbers, len(data)) == (0, data)
        answer = answer_line(refusal, numbers, room, UNUSED_NUMBER)
        self.add(READ, room, len(data), data, refusal, answer)

    def write(self, expected, numbers, room=ROOM):
        refusal, data = write_sheet(numbers, room)
        assert expected in (refusal, None), (expected, refusal, numbers)
        if refusal == 0:  # and the other way round
            assert read_sheet(data, len(numbers)) == (0, numbers)
        answer = answer_line(refusal, data, room, UNUSED_BYTE)
        self.add(WRITE, room, len(numbers), packed(numbers), refusal, answer)

    def both(self, expected, *paths):
        """The sheet of these paths read, and its number list written."""
        data = sheet(*paths)
        self.read(expected, data)
        self.write(expected, number_list(*paths), max(ROOM, len(data)))


# Good sheets, read and written, with every kind of room

def good_sheets():
    limits = [(1, 0), (1, 1), (ONE_UNIT, ONE_UNIT), (ONE_UNIT, 0), LIMITS]
    for upper, lower in limits:
        yield upper, lower, []
        yield upper, lower, [straight(1)]
    several = [straight(2, 5, (10, -10, 24), (-3, 4, -2)),
               straight(1, SHEET_FINEST),
               straight(MOST_SEGMENTS, 7, (LOWEST, HIGHEST, 90), (2, -2, 1)),
               BENT, straight(3, 1, (9, 9, 9), (0, 0))]
    yield 3, 2, several
    yield ONE_UNIT, 1, several[::-1]
    yield 255, 254, PAIR
    for degree in DEGREES:
        yield ONE_UNIT - 1, 257, [straight(1, level, degree=degree)
                                  for level in range(LEVELS)]
    yield 4, 3, [CURVED]
    yield 65_280, 256, [CURVED, BENT,
                        straight(MOST_SEGMENTS, 9, degree=QUADRATIC),
                        straight(2, 2, (5, 5, 5), (0, -1)), CURVED]
    # Coordinates at both ends, each way round.
    for ends in CORNERS:
        yield (*LIMITS, [straight(2, 4, ends, (0, 0))])
    # Neighbours exactly as far apart as they may be.
    for ways in [(1, 0, 0), (0, 1, 0), (0, 0, 1), (1, 1, -1), (-1, 1, 1),
                 (1, -1, 1), (0, 0, -1)]:
        yield (*LIMITS, [zigzag(2, 0, *[FARTHEST[CUBIC] * way
                                        for way in ways])])
    yield (*LIMITS, [straight(16, 0, (LOWEST, HIGHEST, LOWEST),
                              (668, -668, 667))])


def add_good(cases):
    assert (ONE, ONE_LIST) == (SHEET, SHEET_NUMBERS)
    # Each good sheet: room that is enough, one more, more; one short, empty.
    for parts in good_sheets():
        data, listed = sheet_bytes(*parts), sheet_numbers(*parts)
        for more in (0, 1, 40):
            cases.read(0, data, len(listed) + more)
            cases.write(0, listed, len(data) + more)
        cases.read(9, data, len(listed) - 1)
        cases.write(9, listed, len(data) - 1)
        cases.read(9, data, 0)
        cases.write(9, listed, 0)


def add_neighbours(cases):
    # 682 is accepted and 683 refused: each pair of a path of two segments,
    # so also before and after the join, in x, y and width, up and down.
    for after in range(6):
        for ways in [(1, 0, 0), (-1, 0, 0), (0, 1, 0), (0, -1, 0), (0, 0, 1),
                     (0, 0, -1)]:
            for expected, gap in [(0, FARTHEST[CUBIC]),
                                  (2, FARTHEST[CUBIC] + 1)]:
                cases.both(expected, jump(2, after, *[gap * way
                                                      for way in ways]))
    # The widest gap there is; and paths have no neighbours in other paths.
    cases.both(2, cubic(0, [point(LOWEST), point(HIGHEST), point(), point()]))
    cases.both(2, cubic(0, on_width(0, 0, LOWEST, HIGHEST, 0, 0)))
    cases.both(0, *[straight(1, 0, (end, end, end), (0, 0))
                    for end in (LOWEST, HIGHEST)])


def add_large(cases):
    # The largest accepted sheet; a byte less and a byte more.
    parts = [straight(segments, k % LEVELS, (-k, k, 2 * k), (k % 7, -3, k % 5))
             for k, segments in enumerate(LONGEST_SEGMENTS)]
    data, listed = sheet(*parts), number_list(*parts)
    assert len(data) == MOST_BYTES
    cases.read(0, data, len(listed))
    cases.write(0, listed, len(data))
    cases.read(15, data[:-1], MOST_ROOM)
    cases.read(11, data + bytes(1), MOST_ROOM)
    # As many bytes, the last 50 of them after the last record.
    shorter = sheet(*parts[:-1])
    cases.read(16, shorter + bytes(MOST_BYTES - len(shorter)), MOST_ROOM)
    # One segment more is too large, though there is room; with a number left
    # over 17 comes before 11.
    parts[-1] = straight(3)
    listed = number_list(*parts)
    assert len(sheet(*parts)) == MOST_BYTES + 18
    cases.write(11, listed, MOST_ROOM)
    cases.write(17, listed + [0], MOST_ROOM)
    # Good paths that are too large and a bad one: its number before 11.
    one_more = swap(listed, (LISTED_COUNT, len(parts) + 1))
    cases.write(3, one_more + [1, SHEET_FINEST + 1], MOST_ROOM)
    # As many paths as there is room for, and as many as may be counted, which
    # are too large where they are cubics: 32,780 bytes.
    cases.read(0, sheet(*MANY), MOST_ROOM)
    cases.write(0, number_list(*MANY), MOST_ROOM)
    assert len(sheet(*MANY, straight(1))) == 32_780
    cases.write(11, number_list(*MANY, straight(1)), MOST_ROOM)
    # Too large by the least there is, 2 bytes: 50 paths, 1,781 segments.
    parts = [straight(64)] * 26 + [straight(5)] * 23 + [straight(2)]
    assert len(sheet(*parts)) == MOST_BYTES + 2
    cases.write(11, number_list(*parts), MOST_BYTES)


# Random damage to small good sheets and lists

def add_random(cases):
    chance = random.Random(1)
    for _ in range(100):
        parts = random_sheet(chance)
        exact = len(sheet_numbers(*parts))
        data = bytes(damage(chance, sheet_bytes(*parts), strange_byte))
        cases.read(None, data, chance.choice([exact, exact, exact - 1, 100]))
        parts = random_sheet(chance)
        exact = len(sheet_bytes(*parts))
        listed = damage(chance, sheet_numbers(*parts), strange_number)
        cases.write(None, listed, chance.choice([exact, exact - 1, 200]))


# All together

def make_cases():
    cases = Cases()
    for add in (add_good, add_neighbours, add_large):
        add(cases)
    reading_cases.add_all(cases.read)
    writing_cases.add_all(cases.write)
    mark_cases.add_all(cases)
    add_random(cases)
    for code, wanted in ((READ, READ_REFUSALS), (WRITE, WRITE_REFUSALS)):
        met = {number for used, number in cases.tally if used == code}
        assert met == wanted | {0}, (code, met)
    return cases
