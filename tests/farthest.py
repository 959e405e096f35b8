"""How far from the exact curve a cubic gets with all steps at level F: out of
all of them none gets farther than tests/exact_curve.py has it.

    python3 tests/farthest.py F ..     seconds up to F = 10, a minute or two
                                       at 11, a quarter of an hour at 12
"""
import sys

import above                # the folder of `model`
from exact_curve import FARTHEST
from model.constants import CUBIC
from model.drawing import last_position, start_registers
from model.rules import reach
from tally import Tally


def bends(finest):
    """Second differences of control points, v1 - v0 and v2 - v1: all of A, and
    of B = 3 (v1 - v0) as far as floors by 2^F tell one from another. Of c the
    part with B is a multiple of 2^(16-F) B, and the part with C of 2^F."""
    far, classes = 2 * reach(CUBIC, finest), 2 ** max(0, 2 * finest - 16)
    for A in range(-2 * far, 2 * far + 1):
        for least in range(-far, classes - far):
            for first in range(least, far + 1, classes):
                second = A + first
                if abs(second) <= far and abs(first + second) <= far:
                    yield first, second
                    break


def control_points(far, first, second):
    """Four with these second differences, and neighbours at most so far."""
    v0 = -far - min(0, first, first + second)
    v1 = v0 + first
    v2 = v1 + second
    return [0, v0, v0 + v1, v0 + v1 + v2]


def off_at_the_end(values, finest):
    """How far below its last point d ends. On the way it is never farther: at
    level F the floors only ever take something off c and d."""
    a, b, c, d = start_registers(CUBIC, values, finest)
    for _ in range(last_position(finest)):
        d += c >> finest
        c += b >> finest
        b += a
    return 65_536 * values[-1] - d


def check(tally, finest):
    far = reach(CUBIC, finest)
    farthest, values = max(
        (off_at_the_end(values, finest), values)
        for values in (control_points(far, *bend) for bend in bends(finest)))
    print(f"F = {finest}: {farthest}, by {values}")
    tally.equal(f"the farthest at F = {finest}", farthest, FARTHEST[finest][1])


def main():
    levels = sys.argv[1:]
    if not levels or not all(level in map(str, FARTHEST) for level in levels):
        sys.exit(__doc__)
    tally = Tally()
    for level in levels:
        check(tally, int(level))
    sys.exit(tally.end())


if __name__ == "__main__":
    main()
