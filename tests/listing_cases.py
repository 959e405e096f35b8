"""Sheets for the programs that list them.

    make_sheets(seed, number)   so many, by chance and at the ends of what a
                                sheet can be: each is given to `listing`
    gate_sheets()               a few that show each kind: stored for
                                `listing_cases`
"""
import random

from chance import damage, random_sheet, strange_byte
from document_cases import OLD_SHEET, SHEET
from makers import (LEVELS, LONGEST, LONGEST_QUADRATICS, LONGEST_SEGMENTS,
                    MANY, MOST_QUADRATICS, cubic, on_width, point, quadratic,
                    sheet, straight, zigzag)
from model.constants import (CUBIC, DEGREES, FARTHEST, HIGHEST, LOWEST,
                             MOST_BYTES, MOST_SEGMENTS, ONE_UNIT,
                             POINT_NUMBERS, QUADRATIC, SHEET_FINEST)
from model.points import points_in
from model.sheet import sheet_bytes
from old_form import BY_HAND, OLD_PAIR
from quadratic_cases import SHEET as QUADRATIC_SHEET
from spoilt import BENT, CURVED, SPOILT_SHEETS, two_of_each

# 32,769 bytes, of which the first 32,768 are a sheet: a program that asks for
# no more lists it.
TOO_LONG = LONGEST + bytes(1)

# As many bytes as a sheet may have, the last ones after its last record.
FILLED = sheet(*map(straight, LONGEST_SEGMENTS[:-1]))
FILLED += bytes(MOST_BYTES - len(FILLED))


def wave(segments, level, dx, height, widths=(0, 0), degree=CUBIC):
    """A path of curves that go up and down, and on to the right; the widths
    go from the first to the second, and back in the next segment."""
    path = straight(segments, level, (-80 * segments,), (dx,), degree)
    return path._replace(points=[
        point(x, height if i % degree == 1 else -height,
              widths[i // degree % 2])
        for i, (x, *_) in enumerate(path.points)])


# At the ends of what a sheet can be

def longest_lines(degree):
    """A path of 64 segments: the last has 2,049 entries, and in most of them
    every number is as long as it can be."""
    start, far = point(*[LOWEST] * POINT_NUMBERS), FARTHEST[degree]
    path = straight(1, 0, start, (far, far), degree)
    before = points_in(degree, MOST_SEGMENTS) - len(path.points)
    return path._replace(points=[start] * before + path.points)


def edge_sheets():
    spoilt = [data for sheets in SPOILT_SHEETS.values() for data in sheets]
    return [SHEET, OLD_SHEET, sheet(), LONGEST, LONGEST[:-1], FILLED, TOO_LONG,
            LONGEST + bytes(40_000 - len(LONGEST)), sheet(*MANY),
            sheet(*MANY) + bytes(1), sheet(*MOST_QUADRATICS),
            sheet(*LONGEST_QUADRATICS),
            *[data for degree in DEGREES for data in edges_of(degree)],
            *spoilt, *[data for _, data in BY_HAND]]


def edges_of(degree):
    far = FARTHEST[degree]
    steep = wave(MOST_SEGMENTS, SHEET_FINEST, 6, 300, (5, 600), degree)
    return [sheet(longest_lines(degree)),
            sheet(wave(MOST_SEGMENTS, 3, 5, 7, degree=degree)),
            sheet(zigzag(MOST_SEGMENTS, 0, far, -far, far, degree=degree)),
            sheet_bytes(1, 0, [steep])]


# By chance

def random_bytes(chance):
    """A small sheet, in two of three cases damaged."""
    data = list(sheet_bytes(*random_sheet(chance)))
    if chance.randrange(3):
        data = damage(chance, data, strange_byte)
    return bytes(data)


def make_sheets(seed, number):
    chance = random.Random(seed)
    sheets = edge_sheets()
    while len(sheets) < number:
        sheets.append(random_bytes(chance))
    return sheets


# For the gate

def good_sheets():
    corner = straight(2, 6, (LOWEST, HIGHEST, LOWEST), (3, -2, 1))
    slow = cubic(0, [point(0, 0, 24), point(0, 0, 24), point(0, 0, 16),
                     point(8, -8, 8)])
    return [
        SHEET,
        sheet(),
        sheet_bytes(1, 1, []),
        sheet(straight(1, 5, (7, -7, 9), (0, 0)), zigzag(2, 0, 9, -4, 60),
              BENT),
        # The width alone moves.
        sheet(cubic(0, on_width(5, -3, 0, 682, 1_364, 2_046)),
              cubic(3, on_width(0, 0, -15_000, -15_682, -16_364, -16_384))),
        sheet_bytes(40_000, 20_000, [wave(3, 1, 9, 12, (24, 8)), corner, BENT]),
        sheet_bytes(ONE_UNIT, ONE_UNIT,
                    [wave(2, SHEET_FINEST, 30, 40, (-7, 600)),
                     wave(5, 4, 2, 1)]),
        sheet_bytes(ONE_UNIT, 0, [zigzag(2, 2, -60, 25, 7), corner]),
        sheet_bytes(20_000, 19_999, [slow]),
        sheet(*[straight(1, level, (level, -level, 3), (-level, 2, level))
                for level in range(LEVELS)]),
        sheet(wave(MOST_SEGMENTS, 2, 5, 6, (9, 3))),
        # All steps at level 11: 2,049 entries. The widths are their lowest.
        sheet(straight(1, 0, (-1_023, 1_023, LOWEST),
                       (FARTHEST[CUBIC], -FARTHEST[CUBIC]))),
    ]


def quadratic_sheets():
    corner = straight(2, 6, (LOWEST, HIGHEST, LOWEST), (3, -2, 1), QUADRATIC)
    slow = quadratic(0, [point(0, 0, 24), point(0, 0, 16), point(8, -8, 8)])
    return [
        QUADRATIC_SHEET,
        sheet(CURVED, BENT, straight(3, 5, (7, -7, 9), (2, 1), QUADRATIC)),
        # The width alone moves.
        sheet(quadratic(0, on_width(5, -3, 0, 1_023, 2_046))),
        sheet_bytes(40_000, 20_000,
                    [wave(3, 1, 9, 12, (24, 8), QUADRATIC), corner, slow]),
        sheet(*[straight(1, level, (level, -level, 3), (-level, 2, level),
                         degree)
                for level in range(LEVELS) for degree in DEGREES]),
        sheet(wave(MOST_SEGMENTS, 2, 5, 6, (9, 3), QUADRATIC)),
        # All steps at level 11: 2,049 entries. The widths are their lowest.
        sheet(straight(1, 0, (-1_023, 1_023, LOWEST),
                       (FARTHEST[QUADRATIC], -FARTHEST[QUADRATIC]),
                       QUADRATIC)),
    ]


def gate_sheets():
    """Good ones, ones for each refusal but 9, and ones of the old form."""
    return (good_sheets() + quadratic_sheets()
            + [data for _, data in two_of_each()] + [OLD_SHEET, OLD_PAIR])
