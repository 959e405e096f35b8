"""The model's sheet: its bytes and its number list, read and written.

A path is its degree, its start level and its points; its finest level is the
same on every sheet. Degree and level stand there as one number, the mark.
"""
from collections import namedtuple
from struct import Struct

from model.constants import (CUBIC, MOST_BYTES, MOST_PATHS, POINT_NUMBERS,
                             QUADRATIC, QUADRATIC_MARK, SHEET_FINEST)
from model.points import (Point, flat, numbers_in, points_in, points_of,
                          segments_of)
from model.rules import (demand, demand_level, demand_limits, demand_points,
                         demand_segments, refusal_or)

Path = namedtuple("Path", "degree level points")

# What stands in the bytes, and as how many numbers in the list

HEADER, HEADER_NUMBERS = Struct("<III"), 3          # count, upper, lower
OFFSET = Struct("<I")
RECORD, RECORD_NUMBERS = Struct("<HH"), 2           # segments, mark
POINT = Struct(f"<{POINT_NUMBERS}h")


def records_start(count):
    """Where the header of so many paths ends."""
    return HEADER.size + OFFSET.size * count


# The mark: a level, with 256 added in a quadratic record

def mark_of(degree, level):
    return level + QUADRATIC_MARK if degree == QUADRATIC else level


def marked(mark):
    """Degree and level; the mark and so the level may be any number."""
    if mark >= QUADRATIC_MARK:
        return QUADRATIC, mark - QUADRATIC_MARK
    return CUBIC, mark


# Builders: they refuse nothing, so that they can make bad sheets as well

def record_head(path):
    """Segments and mark."""
    return (segments_of(path.degree, path.points),
            mark_of(path.degree, path.level))


def record_bytes(path):
    points = b"".join(POINT.pack(*point) for point in path.points)
    return RECORD.pack(*record_head(path)) + points


def sheet_bytes(upper, lower, paths):
    """The sheet: header, offsets, records."""
    records = [record_bytes(path) for path in paths]
    header = HEADER.pack(len(paths), upper, lower)
    offset = records_start(len(paths))
    for record in records:
        header += OFFSET.pack(offset)
        offset += len(record)
    return header + b"".join(records)


def sheet_numbers(upper, lower, paths):
    """The sheet's number list."""
    numbers = [len(paths), upper, lower]
    for path in paths:
        numbers += [*record_head(path), *flat(path.points)]
    return numbers


# Reading: 11, 12, 4; each record; after the last 16, then 9

def read_record(data, start):
    """One path, and where its record ends. 15, 14, 3, 15, 1, 2."""
    points_start = start + RECORD.size
    demand(points_start <= len(data), 15)
    segments, mark = RECORD.unpack_from(data, start)
    degree, level = marked(mark)
    demand_segments(segments)
    demand_level(level, SHEET_FINEST)
    end = points_start + POINT.size * points_in(degree, segments)
    demand(end <= len(data), 15)
    points = [Point(*row) for row in POINT.iter_unpack(data[points_start:end])]
    demand_points(points, degree, SHEET_FINEST)
    return Path(degree, level, points), end


def read_paths(data):
    """Upper, lower and the paths of a whole sheet."""
    demand(HEADER.size <= len(data) <= MOST_BYTES, 11)
    count, upper, lower = HEADER.unpack_from(data)
    demand(count <= MOST_PATHS, 12)
    end = records_start(count)
    demand(end <= len(data), 12)
    demand_limits(upper, lower)
    paths = []
    for k in range(count):
        offset, = OFFSET.unpack_from(data, records_start(k))
        demand(offset == end, 13)
        path, end = read_record(data, offset)
        paths.append(path)
    demand(end == len(data), 16)
    return upper, lower, paths


def fitting_numbers(data, room):
    numbers = sheet_numbers(*read_paths(data))
    demand(len(numbers) <= room, 9)
    return numbers


def read_sheet(data, room):
    """The refusal (0 for none) and the number list.

    room is the length of the lent number buffer.
    """
    return refusal_or([], fitting_numbers, data, room)


# Writing: 17, 12, 4; each path; then 17 for numbers left over, 11, 9

def take_path(numbers, start):
    """One path, and where its numbers end. 17, 14, 3, 17, 1, 2."""
    points_start = start + RECORD_NUMBERS
    demand(points_start <= len(numbers), 17)
    segments, mark = numbers[start:points_start]
    degree, level = marked(mark)
    demand_segments(segments)
    demand_level(level, SHEET_FINEST)
    end = points_start + numbers_in(degree, segments)
    demand(end <= len(numbers), 17)
    points = points_of(numbers[points_start:end])
    demand_points(points, degree, SHEET_FINEST)
    return Path(degree, level, points), end


def take_paths(numbers):
    """Upper, lower and the paths of a whole number list."""
    end = HEADER_NUMBERS
    demand(end <= len(numbers), 17)
    count, upper, lower = numbers[:end]
    demand(0 <= count <= MOST_PATHS, 12)
    demand_limits(upper, lower)
    paths = []
    for _ in range(count):
        path, end = take_path(numbers, end)
        paths.append(path)
    demand(end == len(numbers), 17)
    return upper, lower, paths


def fitting_bytes(numbers, room):
    data = sheet_bytes(*take_paths(numbers))
    demand(len(data) <= MOST_BYTES, 11)
    demand(len(data) <= room, 9)
    return data


def write_sheet(numbers, room):
    """The refusal (0 for none) and the sheet.

    room is the length of the lent byte buffer.
    """
    return refusal_or(b"", fitting_bytes, numbers, room)
