"""Finest levels F, and levels and positions by them, made by chance."""
from chance import one_in, random_finest, random_level
from misread import PAIRS, place_fault
from model.constants import LEAST_FINEST, MOST_FINEST, SHEET_FINEST
from model.drawing import last_position, step_size
from model.rules import is_level

BAD_FINEST = [MOST_FINEST + 2, 31, 32, LEAST_FINEST + 32, SHEET_FINEST + 32,
              MOST_FINEST + 32, 2**31 - 1, 2**31, 2**31 + SHEET_FINEST,
              2**32 - 1]
BAD_LEVELS = [MOST_FINEST + 1, MOST_FINEST + 2, 31, 32, SHEET_FINEST + 32,
              2**31 - 1, 2**31, 2**32 - 1]


# What is none

def bad_finest(chance):
    """Next to the good ones, too small, or much too large."""
    return chance.choice([LEAST_FINEST - 1, MOST_FINEST + 1,
                          chance.randrange(LEAST_FINEST),
                          chance.choice(BAD_FINEST)])


def bad_level(chance, finest):
    """Above F: by one, by no more than another F allows, or far."""
    return chance.choice([finest + 1,
                          chance.randint(finest + 1, MOST_FINEST + 1),
                          chance.choice(BAD_LEVELS)])


# Levels and positions

def good_level(chance, finest):
    """Often the finest one."""
    return chance.choice([finest, random_level(chance, finest),
                          random_level(chance, finest)])


def any_level(chance, finest):
    if one_in(chance, 8):
        return bad_level(chance, finest)
    return good_level(chance, finest)


def any_position(chance, finest, level):
    """Mostly a multiple of s, for a level that has an s."""
    end = last_position(finest)
    if not is_level(level, finest) or one_in(chance, 5):
        return chance.choice([0, 1, end // 2, end - 1, end, end + 1, 2 * end,
                              2**31, 2**32 - 1, chance.randint(0, end)])
    return chance.randint(0, 2**level) * step_size(finest, level)


def before_end(chance, finest, level):
    """A multiple of s."""
    return chance.randrange(2**level) * step_size(finest, level)


def lawful_place(chance, finest):
    """A level and a position: often their ends, and the middle."""
    level = chance.choice([finest, max(finest - 1, 0),
                           random_level(chance, finest),
                           random_level(chance, finest)])
    steps = chance.choice([0, 2**level // 2, 2**level,
                           chance.randint(0, 2**level)])
    return level, steps * step_size(finest, level)


def shifted_by(chance, finest):
    """F, or for a bad one what a shift by it may be: its last five bits."""
    shift = finest % 32
    return shift if shift <= MOST_FINEST + 1 else random_finest(chance)


def bad_place(chance):
    """A bad F, with a level and a position that seem to go with it."""
    finest = bad_finest(chance)
    return finest, *lawful_place(chance, shifted_by(chance, finest))


def telling_place(chance):
    """F, a level and a position that are lawful by F or by 11, not by both:
    each of the ways in which that can be comes equally often."""
    wanted = chance.choice(PAIRS)
    while True:
        finest = random_finest(chance)
        by = chance.choice([finest, SHEET_FINEST])
        place = lawful_place(chance, by)
        if wanted == tuple(place_fault(each, *place)
                           for each in (finest, SHEET_FINEST)):
            return finest, *place
