"""Makes the example sheets of this folder.

    python3 examples/make.py            writes them
    python3 examples/make.py --check    compares them with those that are here

A path is written as its start and then one row for each segment: two handles
and the end, each x, y and the width of the lane there. Where a curve goes on
smoothly, the handle before a join, the join and the handle after it lie on one
line. y grows downwards, as on a tablet.

An outline of a letter is written as a TrueType font has it: closed contours of
points that lie on the curve or off it.
"""
import sys
from pathlib import Path

HERE = Path(__file__).resolve().parent
sys.path.insert(0, str(HERE.parent / "tests"))

import above  # noqa: E402, F401
import kept  # noqa: E402
from document_cases import SHEET  # noqa: E402
from makers import cubic, point, quadratic, sheet  # noqa: E402
from model.points import flat  # noqa: E402


def path(level, start, *segments):
    """The model's path: its level and all its points in order."""
    return cubic(level, [point(*values)
                         for values in [start, *flat(segments)]])


# Contours: an edge from one point on the curve to the next is straight, and
# between two points off the curve lies one on it. Either way what is left out
# is the point halfway.

def on(x, y):
    return True, x, y


def off(x, y):
    return False, x, y


def halfway(here, there):
    total = here + there
    assert total % 2 == 0, f"halfway from {here} to {there} is no whole number"
    return total // 2


def contour(level, width, *corners):
    """A quadratic path that ends where it starts, with a lane of one width."""
    points = []
    for (kind, *here), (next_kind, *there) in zip(corners,
                                                  corners[1:] + corners[:1]):
        points.append(here)
        if kind == next_kind:
            points.append(map(halfway, here, there))
    return quadratic(level, [point(*place, width)
                             for place in [*points, points[0]]])


# The word "la": the lines of the school's ruled paper are at y 0 (top of the
# l), 24 (top of the a) and 48 (the base line). The lane of each letter narrows
# from 10 units to 2.

L = path(
    0, (0, 44, 10),
    ((10, 38, 10), (24, 16, 9), (24, 6, 8)),        # up from the base line
    ((24, 2, 8), (22, 0, 8), (19, 0, 7)),           # over the top
    ((14, 0, 7), (12, 10, 6), (12, 18, 6)),         # down again
    ((12, 30, 5), (12, 48, 5), (22, 48, 4)),        # to the base line
    ((30, 48, 3), (38, 36, 3), (44, 28, 2)),        # and up towards the a
)
A = path(
    0, (62, 28, 10),
    ((59, 25, 10), (56, 24, 9), (53, 24, 9)),       # back over the bowl
    ((45, 24, 8), (40, 30, 8), (40, 37, 7)),        # down its left side
    ((40, 44, 7), (44, 48, 6), (49, 48, 6)),        # round its bottom
    ((57, 48, 5), (62, 36, 5), (62, 24, 4)),        # up to the top on the right
    ((62, 30, 4), (62, 34, 4), (62, 39, 3)),        # the stem: back down
    ((62, 45, 3), (64, 48, 3), (68, 48, 3)),        # round at the base line
    ((73, 48, 2), (77, 45, 2), (80, 41, 2)),        # and away to the next
)

# A spiral of quarter circles with the radii 4, 8, 12 and so on to 32. A handle
# is about 0.55 times as long as the radius. The lane narrows towards the
# middle, where it starts.

SPIRAL = path(
    0, (4, 0, 1),
    ((4, 2, 1), (2, 4, 2), (0, 4, 2)),
    ((-4, 4, 2), (-8, 0, 3), (-8, -4, 3)),
    ((-8, -11, 3), (-3, -16, 4), (4, -16, 4)),
    ((13, -16, 4), (20, -9, 5), (20, 0, 5)),
    ((20, 11, 5), (11, 20, 6), (0, 20, 6)),
    ((-13, 20, 6), (-24, 9, 7), (-24, -4, 7)),
    ((-24, -19, 7), (-11, -32, 8), (4, -32, 8)),
    ((22, -32, 8), (36, -18, 9), (36, 0, 9)),
)

# The first two control points are equal and the third is near: the curve sets
# out very slowly. Its first steps are long in the parameter, later ones short.

SLOW_START = path(
    0, (0, 0, 12),
    ((0, 0, 12), (10, 0, 8), (48, 40, 4)),
)

# A letter e, its top at y 0 and its base line at 72. The outer contour goes
# round clockwise, and the counter inside it the other way.

E_OUTER = contour(
    0, 4,
    on(64, 38), on(14, 38),                         # back along the bar
    off(14, 50), off(24, 62), on(38, 62),           # down the bowl's inside
    off(50, 62), on(58, 52), on(62, 56),            # to the open end
    off(53, 72), on(36, 72),                        # back to the base line
    off(20, 72), off(0, 52), on(0, 37),             # round to the left
    off(0, 22), off(20, 0), on(34, 0),              # up to the top
    off(48, 0), off(64, 22),                        # and down to the bar
)
E_COUNTER = contour(
    0, 4,
    on(14, 31), on(50, 31),                         # along the bar
    off(50, 21), off(40, 7), on(33, 7),             # up to the top
    off(26, 7), off(14, 21),                        # and down to the bar
)

# Several paths of several segments, each with another start level and a lane
# of its own: even, wide in one place, none where the eight crosses itself,
# and one that ends in a point.

WAVE = path(
    0, (0, 20, 6),
    ((8, 0, 6), (16, 0, 6), (24, 20, 6)),
    ((32, 40, 6), (40, 40, 6), (48, 20, 6)),
    ((56, 0, 6), (64, 0, 6), (72, 20, 6)),
)
HEART = path(
    3, (36, 60, 2),
    ((36, 50, 2), (20, 48, 4), (18, 58, 5)),
    ((16, 68, 6), (28, 76, 8), (36, 86, 8)),
    ((44, 76, 8), (56, 68, 6), (54, 58, 5)),
    ((52, 48, 4), (36, 50, 2), (36, 60, 2)),
)
EIGHT = path(
    6, (84, 43, 0),
    ((74, 33, 4), (74, 18, 7), (84, 18, 7)),
    ((94, 18, 7), (94, 33, 4), (84, 43, 0)),
    ((74, 53, 4), (74, 68, 7), (84, 68, 7)),
    ((94, 68, 7), (94, 53, 4), (84, 43, 0)),
)
CORNERS = path(
    11, (0, 60, 8),
    ((4, 64, 7), (8, 68, 6), (12, 72, 4)),
    ((8, 76, 3), (4, 80, 1), (0, 84, 0)),
)

# Refused 2: the first two control points are 683 apart in x.

TOO_FAR = path(
    0, (0, 0, 8),
    ((683, 0, 8), (683, 0, 8), (683, 0, 8)),
)

SHEETS = {
    "letters.sheet": sheet(L, A),
    "outline.sheet": sheet(E_OUTER, E_COUNTER),
    "spiral.sheet": sheet(SPIRAL),
    "slow-start.sheet": sheet(SLOW_START),
    "paths.sheet": sheet(WAVE, HEART, EIGHT, CORNERS),
    "empty.sheet": sheet(),
    "document.sheet": SHEET,
    "refused.sheet": sheet(TOO_FAR),
}

if __name__ == "__main__":
    files = {HERE / name: data for name, data in SHEETS.items()}
    sys.exit(kept.run(files, sys.argv[1:], __doc__))
