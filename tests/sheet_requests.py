"""Argument words for the probe's requests of sheets, made by chance."""
from chance import (clamped, damage, one_in, random_degree, random_sheet,
                    strange_byte, strange_mark, strange_number)
from makers import number_list, sheet, straight
from model.constants import MOST_SEGMENTS
from model.sheet import mark_of, sheet_bytes, sheet_numbers
from probe_protocol import MOST_ROOM
from spoilt import SPOILT_LISTS, SPOILT_SHEETS


def remarked(chance, upper, lower, paths, mark):
    """The parts of a sheet, with this mark for one of its paths."""
    paths = list(paths)
    if paths:
        k = chance.randrange(len(paths))
        paths[k] = paths[k]._replace(level=mark - mark_of(paths[k].degree, 0))
    return upper, lower, paths


def spoil(chance, good, strange, spoilt):
    """Good values, damaged or not, or one of those spoilt by hand."""
    values = list(good)
    for _ in range(chance.choice([0, 1, 1, 2])):
        values = damage(chance, values or [0], strange)
    if one_in(chance, 5):
        values = chance.choice(spoilt[chance.choice(list(spoilt))])
    return values


def random_room(chance, exact):
    return clamped(chance.choice([exact, exact, exact, exact + 1, exact - 1,
                                  exact + 30, 0]), 0, MOST_ROOM)


def longest_paths(chance, number):
    """So many of one degree, with as many segments as may be."""
    return [straight(MOST_SEGMENTS, degree=random_degree(chance))] * number


def make_read(chance):
    if one_in(chance, 200):
        paths = longest_paths(chance, chance.randint(1, 14))
        return [MOST_ROOM, *sheet(*paths)]
    parts = random_sheet(chance)
    if one_in(chance, 3):
        mark = strange_mark(chance) % 2**16
        data = list(sheet_bytes(*remarked(chance, *parts, mark)))
    else:
        data = spoil(chance, sheet_bytes(*parts), strange_byte, SPOILT_SHEETS)
    if one_in(chance, 10):  # only the low byte of a word counts
        data = [byte + 256 * chance.randint(-3, 3) for byte in data]
    return [random_room(chance, len(sheet_numbers(*parts))), *data]


def make_write(chance):
    if one_in(chance, 200):
        paths = longest_paths(chance, chance.randint(1, 28))
        more = [straight(6)] * chance.randint(0, 2)
        return [MOST_ROOM, *number_list(*paths, *more)]
    parts = random_sheet(chance)
    if one_in(chance, 3):
        mark = strange_mark(chance)
        listed = sheet_numbers(*remarked(chance, *parts, mark))
    else:
        listed = spoil(chance, sheet_numbers(*parts), strange_number,
                       SPOILT_LISTS)
    return [random_room(chance, len(sheet_bytes(*parts))), *listed]
