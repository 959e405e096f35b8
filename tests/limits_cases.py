"""Order 6's cases, reckoned by hand: requests without limits for the probe.

CASES has (what is tried, name of the request, argument words, answer line).
They are at the values where 45,875 and 22,937 decide; at 65,536 and 32,768
most are answered otherwise.
"""
from boundaries import DOUBLE, HALVE, STEP, chosen
from document_cases import FINEST, on_x
from finest_cases import A_POINTS, entries
from makers import on_width
from model.constants import CUBIC, QUADRATIC
from model.points import flat
from probe_protocol import line


def chosen_without(what, operation, b, c, c_of_y=0):
    """At level 1: one step adds half of c, two at once add c and b / 4."""
    what, _, words, answer = chosen(what, operation, 1, 0, b, c, c_of_y, [])
    return what, "next_standard", words, answer


def drawn(what, degree, segments, numbers, listed, length):
    """A path drawn from level 0 with as much room as it needs, or measured."""
    path, room = [degree, segments, FINEST, 0, *numbers], 4 * len(listed)
    answer = [0, len(listed), length]
    return [(what, "draw_standard", [room, *path],
             line(answer + flat(listed))),
            (what, "measure_standard", path, line(answer))]


CASES = [
    chosen_without("equal to upper", STEP, 0, 91_751),
    chosen_without("larger in x", HALVE, 0, 91_752),
    chosen_without("larger in y", HALVE, 0, 0, 91_752),
    chosen_without("equal below 0", STEP, 0, -91_750),
    chosen_without("larger by the floor", HALVE, 0, -91_751),
    chosen_without("both smaller than lower", DOUBLE, 0, 45_873, 45_873),
    chosen_without("x equal to lower", STEP, 0, 45_874),
    chosen_without("y equal to lower", STEP, 0, 0, 45_874),
    chosen_without("doubled, equal to upper", DOUBLE, 8, 45_873),
    chosen_without("doubled, larger", STEP, 12, 45_873),
    # A's three units are 24,576 at level 3, and 49,152 at level 2; a whole
    # unit was small enough, so that it had five points.
    *drawn("A", CUBIC, 1, A_POINTS,
           entries(range(0, 2_049, 256), [0, 0, 1, 1, 2, 2, 2, 3, 3]), 3_000),
    # Two units are 32,768 at level 2.
    *drawn("two units", QUADRATIC, 1, on_x(0, 1, 2),
           entries(range(0, 2_049, 512), [0, 1, 1, 2, 2]), 2_000),
    *drawn("two units, and back", QUADRATIC, 2, on_x(0, 1, 2, 1, 0),
           entries(range(0, 4_097, 512), [0, 1, 1, 2, 2, 2, 1, 1, 0]), 4_000),
    *drawn("at rest", CUBIC, 1, flat(on_width(7, 7, 7, 7, 7, 7)),
           [(0, 7, 7, 7), (2_048, 7, 7, 7)], 0),
]
