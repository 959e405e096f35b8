"""Order 8's cases, reckoned by hand: requests for the probe with widths.

CASES has (what is tried, name of the request, argument words, answer line).
"""
from document_cases import FINEST
from makers import LIMITS, on_width
from model.constants import CUBIC
from model.points import flat
from probe_protocol import line


def drawn(what, level, segments, points, entries, length):
    """A path drawn with as much room as it needs."""
    numbers = flat(entries)
    words = [len(numbers), CUBIC, segments, FINEST, level, *LIMITS,
             *flat(points)]
    return what, "draw", words, line([0, len(entries), length, *numbers])


# Three curves at once: x is document 01's A, y its B, the width its C. Their
# C, B, A are 3, 0, 0; -3, 0, 0; 0, 0, 8.

THREE = [(0, 3, 0), (1, 2, 0), (2, 1, 0), (3, 0, 8)]

STARTED = [FINEST, 0, 0,
           0, 0, 196_608, 0,
           0, 0, -196_608, 196_608,
           3_145_728, 3_145_728, 524_288, 0]
HALVED = [FINEST, 1, 0,
          0, 0, 196_608, 0,
          0, 0, -196_608, 196_608,
          1_572_864, 1_572_864, 131_072, 0]
HALVED_TWICE = [FINEST, 2, 0,
                0, 0, 196_608, 0,
                0, 0, -196_608, 196_608,
                786_432, 786_432, 32_768, 0]
STEPPED = [FINEST, 2, 512,
           0, 0, 196_608, 49_152,
           0, 0, -196_608, 147_456,
           786_432, 1_572_864, 229_376, 8_192]

# x and y choose the steps as in A; the width is 8/64, 1, 27/8 and 8 there.
THREE_DRAWN = [(0, 0, 3, 0), (512, 1, 2, 0), (1_024, 2, 2, 1),
               (1_536, 2, 1, 3), (2_048, 3, 0, 8)]

# Two segments, each in one step, the width 4, 4, 4, 9 and 9, 3, 3, 3.
JOINED = on_width(6, -2, 4, 4, 4, 9, 3, 3, 3)

CASES = [
    drawn("the width alone moves", 0, 1, on_width(5, -3, 0, 682, 1_364, 2_046),
          [(0, 5, -3, 0), (2_048, 5, -3, 2_046)], 0),
    drawn("the width alone moves, and back", 0, 1,
          on_width(0, 0, 2_046, 1_364, 682, 0),
          [(0, 0, 0, 2_046), (2_048, 0, 0, 0)], 0),
    drawn("three curves", 0, 1, THREE, THREE_DRAWN, 1_414 + 2_000 + 1_414),
    drawn("a join", 0, 2, JOINED, [(0, 6, -2, 4), (2_048, 6, -2, 9),
                                   (4_096, 6, -2, 3)], 0),
    ("three curves", "start", [*flat(THREE), FINEST, 0], line([0, *STARTED])),
    ("three curves", "halve", STARTED, line([0, *HALVED])),
    ("three curves", "halve", HALVED, line([0, *HALVED_TWICE])),
    ("three curves", "double", HALVED_TWICE, line([0, *HALVED])),
    ("three curves", "step", HALVED_TWICE, line([0, *STEPPED])),
    ("three curves", "next", [*STARTED, *LIMITS], line([0, 0])),
    ("three curves", "next", [*HALVED_TWICE, *LIMITS], line([0, 2])),
    ("three curves", "shown", STEPPED, line([1, 2, 0])),
    ("x, y and width", "shown", [FINEST, 0, 0, 0, 0, 0, 65_536,
                                 0, 0, 0, -131_072, 0, 0, 0, 196_608],
     line([1, -2, 3])),
]
