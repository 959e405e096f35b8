"""Draws a sheet as an SVG picture on standard output.

    python3 tools/picture.py SHEET LISTING > out.svg

SHEET is a sheet file and LISTING what the program 'listing' printed for it.
Curves and control points are drawn from the sheet, the points and the lanes
from the listing: no point is reckoned here. `./list --svg SHEET` calls this.

The large group has the sheet's own coordinates: a pixel is a square of one
unit with its centre at whole numbers. Text and labels have screen coordinates.
"""
import itertools
import math
import sys
from pathlib import Path
from xml.sax.saxutils import escape

from frame import ABOVE, BELOW, Frame, between, read_drawn
from lane import lane
from model.constants import CUBIC, QUADRATIC
from svg import AXIS, CURVE, GRID, HANDLE, INK, LANE, PAPER, SCALE, SOFT, colour, line, number, text

COMMANDS = {QUADRATIC: "Q", CUBIC: "C"}         # of an SVG path
SEGMENT = {QUADRATIC: "quadratic segment", CUBIC: "segment"}

GRID_SCALE = 5                      # from here on the unit grid is drawn
LEGEND, LINE = 40, 18
SHADES = 64
FROM_START = 24                     # from a path's start to its number
ENOUGH_ROOM = 18                    # from that to the nearest dot
EIGHTH = complex(math.sqrt(0.5), math.sqrt(0.5))
TURNS = [1, EIGHTH, EIGHTH.conjugate(), 1j, -1j, -EIGHTH.conjugate(), -EIGHTH]

MOST_DOTS = 20_000                  # of more entries some are left out
MOST_HINTS = 4_000                  # up to here a dot tells its entry under the mouse
MOST_NEAR = 4_000                   # dots that the labels keep away from
MOST_LABELS = 60
MOST_LINES = 8                      # paths that have a line of text


# The layers, from the bottom up

def grid(frame):
    """The edges of the pixels, where they are wide enough to be seen."""
    if frame.scale < GRID_SCALE:
        return []
    right, bottom = frame.left + frame.wide, frame.top + frame.high
    data = "".join(f"M{k - 0.5} {frame.top}V{bottom}" for k in between(frame.left + 0.5, right + 0.5, 1))
    data += "".join(f"M{frame.left} {k - 0.5}H{right}" for k in between(frame.top + 0.5, bottom + 0.5, 1))
    return [f'<path d="{data}" stroke="{GRID}" stroke-width="{frame.units(0.8)}"/>']


def tick_gap(frame):
    """1, 2 or 5 with zeros: at least 60 on the screen between two numbers."""
    return next(gap * 10 ** k for k in range(6) for gap in (1, 2, 5) if gap * 10 ** k * frame.scale >= 60)


def ticks(frame):
    gap = tick_gap(frame)
    right, bottom = frame.x(frame.left + frame.wide), frame.bottom
    style = f'stroke="{AXIS}"'
    parts = []
    for k in between(frame.left, frame.left + frame.wide, gap):
        parts.append(line(frame.x(k), ABOVE, frame.x(k), bottom, style))
        parts.append(text(frame.x(k), ABOVE - 7, str(k), 10, SOFT, "middle"))
    for k in between(frame.top, frame.top + frame.high, gap):
        parts.append(line(frame.indent, frame.y(k), right, frame.y(k), style))
        parts.append(text(frame.indent - 7, frame.y(k) + 3.5, str(k), 10, SOFT, "end"))
    return parts


def joined(points):
    return " ".join(f"{point.x} {point.y}" for point in points)


def polygon(path):
    return f'<path d="M{joined(path.points)}" marker-start="url(#square)" marker-mid="url(#square)" marker-end="url(#square)"/>'


def curve(path):
    return f'<path d="M{joined(path.points[:1])}{COMMANDS[path.degree]}{joined(path.points[1:])}"/>'


def dot(entry, radius, hint):
    shape = f'<circle cx="{entry.x}" cy="{entry.y}" r="{radius}"'
    told = f"{entry.position}: {entry.x}, {entry.y}, width {entry.width}"
    return f"{shape}><title>{told}</title></circle>" if hint else f"{shape}/>"


def lanes(drawn, frame, every):
    """The lanes of all paths, of one colour: where they cross they are one."""
    shapes = [lane(path.entries[::every] + path.entries[-1:]) for path in drawn]
    return [frame.group(), f'<g class="lanes" fill="{LANE}">', *filter(None, shapes), "</g></g>"]


def dots(path, every, radius, hint):
    """Every so many entries, in groups of one colour."""
    def shade(entry):
        return entry.position * (SHADES - 1) // path.end()

    parts = [f'<g class="entries" id="path{path.index}">']
    for key, entries in itertools.groupby(path.entries[::every], shade):
        parts.append(f'<g fill="{colour(key / (SHADES - 1))}">')
        parts += [dot(entry, radius, hint) for entry in entries]
        parts.append("</g>")
    return parts + ["</g>"]


def free_way(path, start, crowd):
    """The way from the start to its label: straight back, or to where more room is."""
    def room(way):
        label = start + FROM_START * way
        return min(round(min(abs(label - near) for near in crowd)), ENOUGH_ROOM)

    return max((-path.direction() * turn for turn in TURNS), key=room)


def badge(path, frame, crowd):
    """The path's number beside its start, and an arrow head from it to the start."""
    start = frame.place(path.points[0])
    way = free_way(path, start, crowd)
    label = start + FROM_START * way
    crowd.append(label)
    corners = (start + corner * way for corner in (6, 15 + 5j, 15 - 5j))
    arrow = " ".join(f"{number(z.real)} {number(z.imag)}" for z in corners)
    return [
        f'<path d="M{arrow}Z" fill="{colour(0)}"/>',
        f'<circle cx="{number(label.real)}" cy="{number(label.imag)}" r="9" fill="{PAPER}" stroke="{colour(0)}" stroke-width="1.4"/>',
        text(label.real, label.imag + 4, str(path.index), 11, colour(0), "middle", ' font-weight="bold"'),
    ]


def badges(drawn, frame):
    seen = [frame.place(entry) for path in drawn for entry in path.entries]
    crowd = seen[::1 + len(seen) // MOST_NEAR]
    return [part for path in drawn[:MOST_LABELS] for part in badge(path, frame, crowd)]


def drawing(drawn, frame, every):
    total = sum(len(path.entries) for path in drawn)
    radius = frame.units(frame.dot)
    parts = lanes(drawn, frame, every) + ticks(frame) + [frame.group()] + grid(frame)
    parts += [f'<g stroke="{HANDLE}" stroke-width="{frame.units(1)}">'] + [polygon(path) for path in drawn] + ["</g>"]
    parts += [f'<g stroke="{CURVE}" stroke-width="{frame.units(2)}">'] + [curve(path) for path in drawn] + ["</g>"]
    for path in drawn:
        parts += dots(path, every, radius, total <= MOST_HINTS)
    return parts + ["</g>"] + badges(drawn, frame)


# The text

def thousandths(value):
    return f"{value // 1000}.{value % 1000:03d}"


def many(count, word):
    return f"{count} {word}" if count == 1 else f"{count} {word}s"


def title(drawn):
    if not drawn:
        return "An empty sheet: no paths"
    points, length = sum(path.count for path in drawn), sum(path.length for path in drawn)
    return f"{many(len(drawn), 'path')}, {many(points, 'point')}, length {thousandths(length)} units"


def notes(drawn, every):
    """The lines of text below the drawing."""
    lines = [f"path {path.index}: {many(path.segments(), SEGMENT[path.degree])} from level {path.level}, "
             f"{many(path.count, 'point')}, length {thousandths(path.length)}" for path in drawn[:MOST_LINES]]
    if len(drawn) > MOST_LINES:
        lines.append(f"and {many(len(drawn) - MOST_LINES, 'path')} more")
    if every > 1:
        lines.append(f"one point in {every} is drawn")
    return lines


def legend(y, has_lanes):
    """One row: what the lines and marks are, the colours from start to end, and the lane where there is one."""
    parts = [
        line(24, y - 4, 48, y - 4, f'stroke="{CURVE}" stroke-width="2"'),
        text(55, y, "exact curve", 12, SOFT),
        line(140, y - 4, 168, y - 4, f'stroke="{HANDLE}"'),
        f'<rect x="151" y="{number(y - 7)}" width="6" height="6" fill="{PAPER}" stroke="{SOFT}"/>',
        text(175, y, "control points", 12, SOFT),
        f'<circle cx="276" cy="{number(y - 4)}" r="4" fill="{colour(0.5)}"/>',
        text(286, y, "points listed:", 12, SOFT),
        text(372, y, "start", 12, colour(0)),
        f'<rect x="404" y="{number(y - 9)}" width="96" height="9" rx="4.5" fill="url(#scale)"/>',
        text(506, y, "end", 12, colour(1)),
    ]
    if has_lanes:
        parts.append(f'<rect x="540" y="{number(y - 9)}" width="20" height="9" fill="{LANE}"/>')
        parts.append(text(566, y, "lane", 12, SOFT))
    return parts


def definitions(frame):
    stops = "".join(f'<stop offset="{number(k / (len(SCALE) - 1))}" stop-color="{colour(k / (len(SCALE) - 1))}"/>'
                    for k in range(len(SCALE)))
    side = max(6, 2.3 * frame.dot) if frame.scale > 1 else 3
    return [
        f'<defs><linearGradient id="scale">{stops}</linearGradient>',
        f'<marker id="square" markerUnits="userSpaceOnUse" markerWidth="{frame.units(side + 2)}" markerHeight="{frame.units(side + 2)}" '
        f'viewBox="-4 -4 8 8"><path d="M-3-3H3V3H-3Z" fill="{PAPER}" stroke="{SOFT}"/></marker></defs>',
    ]


def picture(drawn):
    frame = Frame(drawn)
    every = max(1, -(-sum(len(path.entries) for path in drawn) // MOST_DOTS))
    lines = notes(drawn, every)
    height = frame.bottom + BELOW + LINE * len(lines) + LEGEND
    size = f"{number(frame.width)} {number(height)}"
    parts = [
        f'<svg xmlns="http://www.w3.org/2000/svg" viewBox="0 0 {size}" width="{number(frame.width)}" height="{number(height)}" '
        'font-family="system-ui, Helvetica, Arial, sans-serif">',
        f"<title>{escape(title(drawn))}</title>",
    ]
    parts += definitions(frame)
    parts.append(f'<rect width="100%" height="100%" rx="8" fill="{PAPER}"/>')
    parts.append(text(24, 34, title(drawn), 18, INK, "start", ' font-weight="600"'))
    parts += drawing(drawn, frame, every)
    for k, words in enumerate(lines):
        parts.append(text(24, frame.bottom + BELOW + LINE * k, words, 12, SOFT))
    parts += legend(height - 22, any(entry.width > 0 for path in drawn for entry in path.entries))
    return "\n".join(parts + ["</svg>"]) + "\n"


def main(arguments):
    if len(arguments) != 2:
        return __doc__
    sheet, listing = (Path(name) for name in arguments)
    sys.stdout.write(picture(read_drawn(sheet.read_bytes(), listing.read_text(encoding="ascii"))))
    return 0


if __name__ == "__main__":
    sys.exit(main(sys.argv[1:]))
