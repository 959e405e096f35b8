"""Document 01's own cases: A to M as requests for the probe, and its sheet.

CASES has (letter, name of the request, argument words, answer line). The
cases speak of one coordinate, x here; the others are 0 throughout. Curves are
cubics and the finest level is 11, as document 01 has it. Every number of an
answer is the document's, or reckoned by hand where it gives none: the lengths
of B, K and L, the start and the step of M.

SHEET is path A in the form of order 8, its widths 0; OLD_SHEET has the bytes
that document 01 gives, which have no widths.
"""
import makers
from model.constants import CUBIC
from model.points import flat
from probe_protocol import REGISTER_WORDS, line

SHEET = bytes.fromhex("01000000 00000100 00800000 10000000 01000000"
                      "000000000000 010000000000 020000000000 030000000000")
OLD_SHEET = bytes.fromhex("01000000 00000100 00800000 10000000 01000000"
                          "00000000 01000000 02000000 03000000")
LISTING = """\
paths 1
path 0 points 5 length 3000
0 0 0 0
512 1 0 0
1024 2 0 0
1536 2 0 0
2048 3 0 0
"""

SHEET_NUMBERS = [1, 65_536, 32_768, 1, 0, 0, 0, 0, 1, 0, 0, 2, 0, 0, 3, 0, 0]

FINEST = 11


def on_x(*values):
    """The numbers of points with these x."""
    return flat(makers.on_x(*values))


def drawing(level, q, *registers, finest=FINEST):
    """A drawing with these registers, of x first; the others are 0."""
    others = REGISTER_WORDS - len(registers)
    return [finest, level, q, *registers, *[0] * others]


NO_DRAWING = drawing(0, 0, finest=0)        # what a refused start gives


def drawn(letter, level, xs, positions, drawn_xs, length):
    """A path of one segment, drawn with as much room as it needs."""
    entries = flat([position, *on_x(x)]
                   for position, x in zip(positions, drawn_xs))
    words = [len(entries), CUBIC, 1, FINEST, level, *makers.LIMITS, *on_x(*xs)]
    return letter, "draw", words, line([0, len(positions), length, *entries])


def start(letter, level, xs, refusal, numbers):
    words = [*on_x(*xs), FINEST, level]
    return letter, "start", words, line([refusal, *numbers])


def started(letter, level, xs, numbers):
    return start(letter, level, xs, 0, numbers)


def refused_start(letter, level, xs, refusal):
    return start(letter, level, xs, refusal, NO_DRAWING)


def operated(letter, name, before, after, refusal=0):
    return letter, name, before, line([refusal, *after])


FIVE = [0, 512, 1024, 1536, 2048]
TWELVE = [0, 1024, 1280, 1408, 1536, 1664, 1728, 1792, 1856, 1920, 1984, 2048]

C = drawing(0, 0, 3_145_728, 3_145_728, 524_288, 0)
C_HALVED = drawing(1, 0, 1_572_864, 1_572_864, 131_072, 0)
C_HALVED_TWICE = drawing(2, 0, 786_432, 786_432, 32_768, 0)
F = drawing(2, 512, 786_432, 1_572_864, 229_376, 8_192)
G = drawing(9, 0, 768, 768, 0, 0)
G_STEPPED = drawing(9, 4, 768, 1_536, 1, 0)
H = drawing(9, 0, -768, -768, -1, 0)
H_STEPPED = drawing(9, 4, -768, -1_536, -3, -1)
# M's curve is C's; its start at level 1 is C halved.
M_STEPPED = drawing(1, 1_024, 1_572_864, 3_145_728, 917_504, 65_536)

# I and J say which starts are accepted; these are their registers. For I,
# C = 2,046, B = -2,046, A = 682; for J, 0,1,2,3 has C = 3 alone.
I_ACCEPTED = drawing(0, 0, 268_173_312, 0, 44_695_552, 0)
J_LEVEL = drawing(11, 0, 0, 0, 196_608, 0)
J_COORDINATE = drawing(0, 0, 0, 0, 0, 1_073_676_288)

CASES = [
    drawn("A", 0, [0, 1, 2, 3], FIVE, [0, 1, 2, 2, 3], 3_000),
    drawn("B", 0, [3, 2, 1, 0], FIVE, [3, 2, 2, 1, 0], 3_000),
    started("C", 0, [0, 0, 0, 8], C),
    operated("D", "halve", C, C_HALVED),
    operated("D", "halve", C_HALVED, C_HALVED_TWICE),
    operated("E", "double", C_HALVED_TWICE, C_HALVED),
    operated("F", "step", C_HALVED_TWICE, F),
    started("G", 9, [0, 0, 0, 1], G),
    operated("G", "step", G, G_STEPPED),
    started("H", 9, [0, 0, 0, -1], H),
    operated("H", "step", H, H_STEPPED),
    started("I", 0, [0, 682, 682, 682], I_ACCEPTED),
    refused_start("I", 0, [0, 683, 683, 683], 2),
    started("J", 11, [0, 1, 2, 3], J_LEVEL),
    refused_start("J", 12, [0, 1, 2, 3], 3),
    started("J", 0, [16_383] * 4, J_COORDINATE),
    refused_start("J", 0, [16_384] * 4, 1),
    drawn("K", 5, [7, 7, 7, 7], [0, 2048], [7, 7], 0),
    drawn("L", 0, [0, 0, 0, 8], TWELVE,
          [0, 1, 2, 3, 3, 4, 5, 5, 6, 7, 7, 8], 8_000),
    started("M", 1, [0, 0, 0, 8], C_HALVED),
    operated("M", "step", C_HALVED, M_STEPPED),
    operated("M", "double", M_STEPPED, M_STEPPED, refusal=8),
]
