"""The lane of a picture, drawn round entries whose shape is known."""
import sys

from above import ROOT
from model.path import Entry

sys.path.insert(0, str(ROOT / "tools"))

from lane import lane  # noqa: E402


def entries(*rows):
    """Entries with these x, y and width."""
    return [Entry(position, *row) for position, row in enumerate(rows)]


def drawn(data):
    return f'<path d="{data}"/>'


BAND = drawn("M0 -2L3 -2A2 2 0 0 1 3 2L0 2A2 2 0 1 1 0 -2Z")
DISK = drawn("M3 4A2 2 0 1 1 7 4A2 2 0 1 1 3 4Z")

CASES = [
    ("an even lane", entries((0, 0, 4), (3, 0, 4)), BAND),
    ("three on a straight way", entries((0, 0, 4), (1, 0, 4), (2, 0, 4),
                                        (3, 0, 4)), BAND),
    ("a repeated entry", entries((0, 0, 4), (0, 0, 4), (3, 0, 4)), BAND),
    # A right triangle of the sides 3, 4 and 5: the disk's radius is 3.
    ("to a point", entries((0, 0, 6), (5, 0, 0)),
     drawn("M1.8 -2.4L5 0L1.8 2.4A3 3 0 1 1 1.8 -2.4Z")),
    ("from a point", entries((5, 0, -9), (0, 0, 6)),
     drawn("M1.8 -2.4L5 0L1.8 2.4A3 3 0 1 1 1.8 -2.4Z")),
    ("one place", entries((5, 4, 4), (5, 4, 4)), DISK),
    ("one place, widths 0 and 4", entries((5, 4, 0), (5, 4, 4)), DISK),
    ("one disk in another", entries((5, 4, 4), (6, 4, 1)), DISK),
    ("width 0", entries((0, 0, 0), (3, 0, 0)), ""),
    ("a width below 0", entries((0, 0, -4), (3, 0, -4), (4, 0, 0)), ""),
]


def check_lanes(tally):
    for what, given, expected in CASES:
        tally.equal(f"lane: {what}", lane(given), expected)
