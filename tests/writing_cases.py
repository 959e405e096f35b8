"""Number lists that are refused in writing, each with its refusal, and their
order.

`write(refusal, numbers)` and `write(refusal, numbers, room)` take what is made
here.
"""
from makers import LIMITS, number_list, straight
from model.constants import (HIGHEST, LEAST, LOWEST, MOST, MOST_PATHS,
                             MOST_SEGMENTS, ONE_UNIT, SHEET_FINEST)
from places import LISTED_COUNT, LISTED_LOWER, LISTED_UPPER, swap
from spoilt import (FAR, GAP, LISTED_FIRST, LISTED_ONLY, LISTED_SECOND,
                    ONE_LIST, TWO_LIST, wraps)


# Header

def add_header(write):
    # 17: every prefix of a good list, and numbers left over.
    for length in range(len(TWO_LIST)):
        write(17, TWO_LIST[:length])
    for more in ([0], [-1], [1, 0], TWO_LIST[LISTED_SECOND.start:]):
        write(17, TWO_LIST + more)
    write(17, [0, *LIMITS, 0])
    write(17, swap(TWO_LIST, (LISTED_COUNT, 1)))
    write(17, swap(TWO_LIST, (LISTED_COUNT, 3)))
    # 1,024 paths promised, none there: 17, for 12 looks at the count alone.
    write(17, [MOST_PATHS, *LIMITS])
    # 12.
    for count in (-1, MOST_PATHS + 1, 65_536, 65_537, 2**30, MOST, LEAST,
                  LEAST + 1):
        write(12, [count, *LIMITS])
        write(12, swap(ONE_LIST, (LISTED_COUNT, count)))
    # 4.
    pairs = [(0, 0), (-1, 0), (-1, -1), (ONE_UNIT + 1, 0), (MOST, 0),
             (LEAST, 0), (LEAST, LEAST), (1, 2), (ONE_UNIT - 1, ONE_UNIT),
             (ONE_UNIT, ONE_UNIT + 1), (ONE_UNIT, -1), (ONE_UNIT, LEAST),
             (ONE_UNIT, MOST), (1, -1)]
    for upper, lower in pairs:
        write(4, [0, upper, lower])
        write(4, swap(ONE_LIST, (LISTED_UPPER, upper), (LISTED_LOWER, lower)))


# Paths

def add_heads(write):
    # 14 and 3, in the first and the second path. The largest S make the size
    # of the points wrap round in 32 bits.
    for segments in (0, -1, MOST_SEGMENTS + 1, 256, 65_536, 65_537,
                     wraps(31), wraps(32), wraps(32) + 1, 2**30,
                     wraps(33) + 1, MOST, LEAST):
        write(14, swap(TWO_LIST, (LISTED_FIRST.segments, segments)))
        write(14, swap(TWO_LIST, (LISTED_SECOND.segments, segments)))
    for level in (SHEET_FINEST + 1, -1, -SHEET_FINEST, 255, 65_535, 65_536,
                  65_536 + 3, MOST, LEAST):
        write(3, swap(TWO_LIST, (LISTED_FIRST.mark, level)))
        write(3, swap(TWO_LIST, (LISTED_SECOND.mark, level)))
    # More segments than numbers, or fewer.
    for segments in (2, 3, MOST_SEGMENTS):
        write(17, swap(TWO_LIST, (LISTED_SECOND.segments, segments)))
    write(17, swap(number_list(straight(2)), (LISTED_ONLY.segments, 1)))


def add_points(write):
    # 1: every place of a path; none is cut to 16 bits.
    for good, bad in [(HIGHEST, HIGHEST + 1), (LOWEST, LOWEST - 1),
                      (0, 65_536)]:
        listed = number_list(straight(1, 0, (good, good, good), (0, 0)))
        write(0, listed)
        for place in LISTED_ONLY.numbers:
            write(1, swap(listed, (place, bad)))
    for bad in (65_536 + 5, -65_536, 32_767, 32_768, -32_768, -32_769,
                MOST, LEAST, 2**24):
        for place in (LISTED_FIRST.x(0), LISTED_FIRST.y(1),
                      LISTED_FIRST.width(3), LISTED_SECOND.x(0),
                      LISTED_SECOND.width(0), LISTED_SECOND.y(3)):
            write(1, swap(TWO_LIST, (place, bad)))
    # A gap beyond 32 bits is 1 as well.
    write(1, swap(ONE_LIST, (LISTED_ONLY.x(0), LEAST),
                  (LISTED_ONLY.x(1), MOST)))
    write(1, swap(ONE_LIST, (LISTED_ONLY.y(2), MOST),
                  (LISTED_ONLY.y(3), LEAST)))
    write(1, swap(ONE_LIST, (LISTED_ONLY.width(1), LEAST),
                  (LISTED_ONLY.width(2), MOST)))
    # 2 by a width alone, of each pair of the path.
    for k in range(4):
        write(2, swap(ONE_LIST, (LISTED_ONLY.width(k), GAP)))
        write(2, swap(ONE_LIST, (LISTED_ONLY.width(k), -GAP)))
    # Numbers of points that have no width: too few of them.
    write(17, [1, *LIMITS, 1, 0, 0, 0, 1, 0, 2, 0, 3, 0])


# The order of refusals

def add_order(write):
    path = LISTED_ONLY
    # 17 for the first three numbers before 12 and 4.
    for short in ([MOST_PATHS + 1], [-1, 0], [0, 0]):
        write(17, short)
    # 12 before 4; 4 before 17 for two numbers.
    write(12, [MOST_PATHS + 1, 0, 0])
    write(12, [-1, -1, -1])
    write(4, [1, 0, 0])
    write(4, [1, ONE_UNIT, ONE_UNIT + 1, 0])
    # 17 for two numbers before 14.
    write(17, [1, *LIMITS, 0])
    write(17, [1, *LIMITS, -1])
    # 14 before 3, and before 17 for the points.
    write(14, swap(ONE_LIST, (path.segments, 0),
                   (path.mark, SHEET_FINEST + 1)))
    write(14, [1, *LIMITS, MOST_SEGMENTS + 1, 0])
    write(14, [1, *LIMITS, -1, -1])
    # 3 before 17 for the points.
    write(3, [1, *LIMITS, MOST_SEGMENTS, SHEET_FINEST + 1])
    write(3, swap(ONE_LIST, (path.mark, -1))[:-1])
    # 17 for the points before 1 and 2.
    write(17, swap(ONE_LIST, (path.x(0), FAR))[:-1])
    write(17, swap(ONE_LIST, (path.x(1), GAP))[:-1])
    # 1 over all points before 2.
    write(1, swap(ONE_LIST, (path.x(1), GAP), (path.y(3), LOWEST - 1)))
    write(1, swap(ONE_LIST, (path.x(1), GAP), (path.width(3), FAR)))
    write(1, swap(ONE_LIST, (path.width(1), GAP), (path.x(3), FAR)))
    # 1 and 2 before 17 for numbers left over, and before 9.
    write(1, swap(ONE_LIST, (path.y(3), FAR)) + [0])
    write(2, swap(ONE_LIST, (path.x(3), GAP)) + [0])
    write(2, swap(ONE_LIST, (path.x(3), GAP)), 0)
    # 17 for numbers left over before 9.
    write(17, ONE_LIST + [0], 0)


def faults(path, gap):
    """A fault of the path for each refusal."""
    return {14: (path.segments, 0), 3: (path.mark, SHEET_FINEST + 1),
            17: (path.segments, MOST_SEGMENTS), 1: (path.x(0), FAR),
            2: (path.x(3), gap)}


def add_order_across(write):
    # A fault of path 0 comes before any of path 1, also before those that
    # stand earlier in the order; and both before 17 for numbers left over.
    first, second = faults(LISTED_FIRST, GAP), faults(LISTED_SECOND, 16_000)
    start, end = LISTED_SECOND.start, LISTED_SECOND.end
    for number, fault in first.items():
        for other in second.values():
            write(number, swap(TWO_LIST, fault, other))
        if number != 17:
            for length in (start, start + 1, start + 2, end - 1):
                write(number, swap(TWO_LIST, fault)[:length])
    for number, fault in second.items():
        write(number, swap(TWO_LIST, fault) + [0])
        write(number, swap(TWO_LIST, fault), 0)
    # Header faults before all of them.
    for fault in first.values():
        write(12, swap(TWO_LIST, (LISTED_COUNT, -1), fault))
        write(4, swap(TWO_LIST, (LISTED_LOWER, -1), fault))


def add_all(write):
    for add in (add_header, add_heads, add_points, add_order,
                add_order_across):
        add(write)
