"""Numbers, colours and elements of an SVG picture."""
from xml.sax.saxutils import escape

PAPER, INK, SOFT, GRID, AXIS = "#fdfdfb", "#22252b", "#6b7280", "#ececea", "#d6d6d2"
CURVE, HANDLE, LANE = "#8b95a5", "#b4b8bf", "#dfe9f3"
SCALE = [(38, 52, 160), (126, 34, 168), (204, 65, 112), (240, 138, 48)]


def number(value, places=2):
    digits = f"{value:.{places}f}".rstrip("0").rstrip(".")
    return "0" if digits == "-0" else digits


def colour(part):
    """The colour scale at a part from 0 to 1."""
    place = part * (len(SCALE) - 1)
    k = min(int(place), len(SCALE) - 2)
    mixed = (round(a + (b - a) * (place - k)) for a, b in zip(SCALE[k], SCALE[k + 1]))
    return "#%02x%02x%02x" % tuple(mixed)


def text(x, y, words, size=13, fill=INK, anchor="start", more=""):
    return (f'<text x="{number(x)}" y="{number(y)}" font-size="{size}" fill="{fill}" '
            f'text-anchor="{anchor}"{more}>{escape(words)}</text>')


def line(x1, y1, x2, y2, style):
    return f'<path d="M{number(x1)} {number(y1)}L{number(x2)} {number(y2)}" {style}/>'
