"""Sheets that are refused in reading, each with its refusal, and their order.
Those of the old form are among them.

`read(refusal, sheet)` and `read(refusal, sheet, room)` take what is made here.
"""
from document_cases import OLD_SHEET
from makers import LIMITS, sheet, straight
from model.constants import (HIGHEST, LOWEST, MOST_PATHS, MOST_SEGMENTS,
                             ONE_UNIT, SHEET_FINEST)
from old_form import BY_HAND, old_sheet, random_old_sheets
from places import COUNT, LOWER, UPPER, offset, put, record_places
from spoilt import BENT, FAR, FIRST, GAP, ONE, ONLY, SECOND, TWO


# Header and offsets

def add_header(read):
    # 11: under 12 bytes (over 32,768 is among the large ones). With N = 0,
    # 12 bytes are a sheet and 13 are refused 16.
    empty = sheet()
    for size in range(len(empty)):
        read(11, empty[:size])
    read(0, empty)
    for more in (1, 4, 24, 500):
        read(16, empty + bytes(more))
    # 12 by the count, whatever 4N would wrap to.
    for count in (MOST_PATHS + 1, MOST_PATHS + 2, 65_536, 2**30, 2**30 + 1,
                  2**31, 2**32 - 1):
        read(12, put(empty, (COUNT, count)))
        read(12, put(ONE, (COUNT, count)))
    read(12, put(empty, (COUNT, MOST_PATHS + 1)) + bytes(4 * (MOST_PATHS + 1)))
    # 12 by the size: offsets that are not all there.
    for count in (1, 2, 3, MOST_PATHS):
        head = put(empty, (COUNT, count)) + bytes(4 * count)
        read(12, head[:-1])
        read(12, head[:-4])
        read(13, head)
        read(15, put(head, (offset(0), len(head))))


def add_limits(read):
    # 4: upper, then lower, with and without paths.
    pairs = [(0, 0), (ONE_UNIT + 1, 0), (ONE_UNIT + 1, ONE_UNIT + 1),
             (2**31, 0), (2**32 - 1, 0), (2**31 + 1, 1), (1, 2),
             (ONE_UNIT - 1, ONE_UNIT), (ONE_UNIT, ONE_UNIT + 1),
             (ONE_UNIT, 2**31), (ONE_UNIT, 2**32 - 1), (0, 1)]
    for upper, lower in pairs:
        for data in (sheet(), ONE):
            read(4, put(data, (UPPER, upper), (LOWER, lower)))


def add_offsets(read):
    # 13: off by one, by a field, by 2^16 and by 2^31; the largest number.
    right = ONLY.start
    for wrong in (right - 1, right + 1, 0, right - 4, right - 2, right + 4,
                  ONLY.end, 2**16 + right, 2**31 + right, 2**32 - right,
                  2**32 - 1):
        read(13, put(ONE, (offset(0), wrong)))
    right = SECOND.start
    for wrong in (right - 1, right + 1, right - 4, right + 4, FIRST.start,
                  SECOND.end, 0, 2**16 + right, 2**32 - 1):
        read(13, put(TWO, (offset(1), wrong)))
    read(13, put(TWO, (offset(0), SECOND.start), (offset(1), FIRST.start)))
    # Records with a gap between or before them, well pointed at.
    apart = TWO[:SECOND.start] + bytes(4) + TWO[SECOND.start:]
    read(13, put(apart, (offset(1), SECOND.start + 4)))
    moved = TWO[:FIRST.start] + bytes(4) + TWO[FIRST.start:]
    read(13, put(moved, (offset(0), FIRST.start + 4),
                 (offset(1), SECOND.start + 4)))
    # Two offsets to one record.
    read(13, put(TWO[:SECOND.start], (offset(1), FIRST.start)))
    # A count that is one less or one more than the offsets.
    read(13, put(TWO, (COUNT, 1)))
    read(13, put(TWO, (COUNT, 3)))
    read(16, put(ONE, (COUNT, 0)))
    # Record 0 with other segments: its end is not where record 1 starts.
    read(13, put(TWO, (FIRST.segments, 2)))
    read(13, put(sheet(straight(2), BENT), (FIRST.segments, 1)))


# Records

def add_records(read):
    # 14 and 3, in the first and the second record.
    for segments in (0, MOST_SEGMENTS + 1, MOST_SEGMENTS + 2, 256, 257,
                     32_768, 65_535):
        read(14, put(TWO, (FIRST.segments, segments)))
        read(14, put(TWO, (SECOND.segments, segments)))
    for level in (SHEET_FINEST + 1, SHEET_FINEST + 2, 255, 32_768, 65_535):
        read(3, put(TWO, (FIRST.mark, level)))
        read(3, put(TWO, (SECOND.mark, level)))
    # 15: cut at every byte; 16: more bytes.
    for size in range(len(TWO)):
        expected = 11 if size < 12 else 12 if size < FIRST.start else 15
        read(expected, TWO[:size])
    for more in (1, 2, 4, 20):
        read(16, TWO + bytes(more))
    # The last record with more segments than are there, or with fewer.
    for segments in (2, 3, MOST_SEGMENTS):
        read(15, put(TWO, (SECOND.segments, segments)))
    read(16, put(sheet(straight(2)), (ONLY.segments, 1)))
    read(15, sheet(straight(MOST_SEGMENTS))[:-1])
    # 1: every place of a path; beside a good neighbour it is 1 alone.
    for good, bad in [(HIGHEST, HIGHEST + 1), (LOWEST, LOWEST - 1),
                      (0, 32_767), (0, -32_768)]:
        data = sheet(straight(1, 0, (good, good, good), (0, 0)))
        read(0, data)
        for place in ONLY.numbers:
            read(1, put(data, (place, bad)))


# The order of refusals

def add_order(read):
    # 11 before 12: 11 bytes with count 1,025.
    read(11, put(ONE, (COUNT, MOST_PATHS + 1))[:11])
    # 12 before 4, by the count and by the size.
    read(12, put(ONE, (COUNT, MOST_PATHS + 1), (UPPER, 0)))
    read(12, put(ONE, (UPPER, 0))[:ONLY.start - 1])
    # 4 before 13.
    read(4, put(ONE, (UPPER, 0), (offset(0), ONLY.start + 1)))
    # 13 before 15 for the first four bytes; with a right offset 15.
    for size in (ONLY.start, ONLY.start + 1, ONLY.start + 3):
        read(13, put(ONE, (offset(0), ONLY.start + 1))[:size])
        read(15, ONE[:size])
    # 13 before 14.
    read(13, put(ONE, (offset(0), ONLY.start + 1), (ONLY.segments, 0)))
    # 15 for the first four bytes before 14 and 3.
    read(15, put(ONE, (ONLY.segments, 0))[:ONLY.start + 2])
    read(15, put(ONE, (ONLY.segments, MOST_SEGMENTS + 1),
                 (ONLY.mark, SHEET_FINEST + 1))[:ONLY.start + 3])
    # 14 before 3, and before 15 for the points.
    read(14, put(ONE, (ONLY.segments, 0), (ONLY.mark, SHEET_FINEST + 1)))
    read(14, put(ONE, (ONLY.segments, MOST_SEGMENTS + 1)))
    # 3 before 15 for the points: 64 segments, level 12, cut.
    read(3, put(ONE, (ONLY.segments, MOST_SEGMENTS),
                (ONLY.mark, SHEET_FINEST + 1)))
    read(3, put(ONE, (ONLY.mark, SHEET_FINEST + 1))[:ONLY.start + 4])
    # 15 for the points before 1 and 2.
    read(15, put(ONE, (ONLY.x(0), FAR))[:-1])
    read(15, put(ONE, (ONLY.x(1), GAP))[:-1])
    # 1 over all points before 2: the last point bad, the first pair apart.
    read(1, put(ONE, (ONLY.x(1), GAP), (ONLY.y(3), LOWEST - 1)))
    read(1, put(ONE, (ONLY.x(1), GAP), (ONLY.width(3), FAR)))
    read(1, put(ONE, (ONLY.width(1), GAP), (ONLY.x(3), FAR)))
    # 2 by a width alone, of each pair of the path, and before 16.
    for k in range(4):
        read(2, put(ONE, (ONLY.width(k), GAP)))
        read(2, put(ONE, (ONLY.width(k), -GAP)) + bytes(1))
    # 2 before 16 and 9; 1 before 16; 16 before 9.
    read(2, put(ONE, (ONLY.x(3), GAP)) + bytes(1))
    read(2, put(ONE, (ONLY.x(3), GAP)), 0)
    read(1, put(ONE, (ONLY.y(3), FAR)) + bytes(1))
    read(16, ONE + bytes(1), 0)


def faults(k, record, gap):
    """A fault of record k for each refusal."""
    return {13: (offset(k), record.start + 1), 14: (record.segments, 0),
            3: (record.mark, SHEET_FINEST + 1),
            15: (record.segments, MOST_SEGMENTS), 1: (record.x(0), FAR),
            2: (record.x(3), gap)}


def add_order_across(read):
    # A fault of record 0 comes before any of record 1, also before those
    # that stand earlier in the order; and both before 16 and 9.
    first, second = faults(0, FIRST, GAP), faults(1, SECOND, 16_000)
    for number, fault in first.items():
        for other in second.values():
            read(number, put(TWO, fault, other))
        for size in (SECOND.start, SECOND.start + 3, SECOND.start + 4,
                     SECOND.end - 1):
            read(number, put(TWO, fault)[:size])
    for number, fault in second.items():
        read(number, put(TWO, fault), 0)
        if number != 15:
            read(number, put(TWO, fault) + bytes(1))
    # Header faults before all of them.
    for fault in first.values():
        read(12, put(TWO, (COUNT, MOST_PATHS + 1), fault))
        read(4, put(TWO, (LOWER, ONE_UNIT + 1), fault))
    # Cut right before record k: 15 if offset k is right, 13 if it is not.
    paths = [straight(1), straight(2), BENT]
    for k, record in enumerate(record_places(paths)):
        before = sheet(*paths)[:record.start]
        read(15, before)
        for wrong in (record.start - 1, record.start + 1, 2**32 - 1):
            read(13, put(before, (offset(k), wrong)))


# The old form

def add_old(read):
    # With no path both forms are the same 12 bytes.
    read(0, old_sheet(*LIMITS, []))
    read(15, OLD_SHEET)
    for refusal, data in BY_HAND:
        read(refusal, data)
        read(refusal, data, 0)
    for count, data in random_old_sheets(4, 20):
        read(15 if count == 1 else None, data)


def add_all(read):
    for add in (add_header, add_limits, add_offsets, add_records, add_order,
                add_order_across, add_old):
        add(read)
