"""What is drawn, and where it stands on the screen."""
import math
import sys
from pathlib import Path

sys.path.insert(0, str(Path(__file__).resolve().parent.parent))

from model.path import Entry  # noqa: E402
from model.points import segments_of  # noqa: E402
from model.sheet import read_paths  # noqa: E402
from svg import number  # noqa: E402

WIDEST, HIGHEST = 900, 640          # the drawing's largest size on the screen
NARROWEST = 600                     # room for the text
LARGEST_SCALE = 40                  # screen units for a unit of the sheet
LEFT, ABOVE, RIGHT, BELOW = 48, 74, 28, 30


# The paths of a sheet

class Drawn:
    """A path: its degree, level and control points of the sheet, its text and entries of the listing."""

    def __init__(self, path, heading):
        words = heading.split()
        self.degree, self.level, self.points = path
        self.index, self.count, self.length = (int(words[i]) for i in (1, 3, 5))
        self.entries = []

    def segments(self):
        return segments_of(self.degree, self.points)

    def end(self):
        return self.entries[-1].position

    def direction(self):
        """The way in which the path sets out: a complex number of size 1."""
        start, *others = (complex(point.x, point.y) for point in self.points)
        moves = (other - start for other in others)
        move = next(filter(None, moves), 1)
        return move / abs(move)


def read_drawn(sheet, listing):
    """The paths, from the sheet's bytes and the listing's text."""
    _, _, paths = read_paths(sheet)
    drawn = []
    for row in listing.splitlines()[1:]:
        if row.startswith("path"):
            drawn.append(Drawn(paths[len(drawn)], row))
        else:
            drawn[-1].entries.append(Entry(*map(int, row.split())))
    return drawn


# Their place on the screen

def corners(drawn):
    """Corners of what is shown: of each control point, and of the lane around each entry."""
    for path in drawn:
        yield from ((point.x, point.y) for point in path.points)
        for entry in path.entries:
            half = max(entry.width, 0) / 2
            yield entry.x - half, entry.y - half
            yield entry.x + half, entry.y + half


class Frame:
    """The box of the sheet that is shown, and its scale."""

    def __init__(self, drawn):
        xs, ys = zip(*(list(corners(drawn)) or [(0, 0), (12, 6)]))
        span = max(max(xs) - min(xs), max(ys) - min(ys))
        edge = 1.5 + span // 16
        self.left, self.top = min(xs) - edge, min(ys) - edge
        self.wide, self.high = max(xs) - min(xs) + 2 * edge, max(ys) - min(ys) + 2 * edge
        self.scale = min(WIDEST / self.wide, HIGHEST / self.high, LARGEST_SCALE)
        self.width = max(self.wide * self.scale + LEFT + RIGHT, NARROWEST)
        self.indent = (self.width - self.wide * self.scale + LEFT - RIGHT) / 2
        self.bottom = ABOVE + self.high * self.scale
        self.dot = min(max(0.36 * self.scale, 1.2), 7)

    def x(self, x):
        return self.indent + (x - self.left) * self.scale

    def y(self, y):
        return ABOVE + (y - self.top) * self.scale

    def place(self, point):
        """A point or an entry of the sheet on the screen, as a complex number."""
        return complex(self.x(point.x), self.y(point.y))

    def units(self, pixels):
        """A length on the screen in units of the sheet."""
        return number(pixels / self.scale)

    def group(self):
        """The large group: it has the sheet's own coordinates."""
        move = f"{number(self.indent - self.left * self.scale)} {number(ABOVE - self.top * self.scale)}"
        return f'<g transform="translate({move}) scale({self.scale:.6g})" fill="none">'


def between(low, high, gap):
    """The multiples of gap from low to high."""
    return range(math.ceil(low / gap) * gap, math.floor(high / gap) * gap + 1, gap)
