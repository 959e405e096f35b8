"""Requests that tell a program which keeps a standard limit of before order 6.

READINGS has what such a program takes for the standard limits. A request
without limits tells of a reading where it is answered otherwise under those.
"""
from model.constants import STANDARD_LIMITS
from probe_model import STANDARD, answer

OLD_UPPER, OLD_LOWER = 65_536, 32_768
UPPER, LOWER = STANDARD_LIMITS

READINGS = {
    "65,536 left as upper": (OLD_UPPER, LOWER),
    "32,768 left as lower": (UPPER, OLD_LOWER),
    "65,536 and 32,768 left": (OLD_UPPER, OLD_LOWER),
}
TELLING = {name: set(READINGS) for name in STANDARD}


def told(name, words, numbers):
    """The readings that a request tells of."""
    if name not in STANDARD:
        return []
    return [reading for reading, limits in READINGS.items()
            if answer(name, words, limits) != numbers]
