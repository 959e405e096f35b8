"""The model's listing: the text that the listing program prints of a sheet."""
from model.constants import SHEET_FINEST
from model.path import Shape, length, path_entries
from model.points import segments_of
from model.rules import refusal_or
from model.sheet import read_paths


def shape_of(path):
    """The shape of a sheet's path."""
    return Shape(path.degree, segments_of(path.degree, path.points),
                 SHEET_FINEST, path.level)


def path_lines(index, entries):
    yield f"path {index} points {len(entries)} length {length(entries)}"
    for entry in entries:
        yield " ".join(map(str, entry))


def sheet_lines(upper, lower, paths):
    yield f"paths {len(paths)}"
    for index, path in enumerate(paths):
        entries = path_entries(shape_of(path), (upper, lower), path.points)
        yield from path_lines(index, entries)


def listing(data):
    """The text of a sheet's bytes; each line ends in a line feed."""
    refusal, parts = refusal_or(None, read_paths, data)
    lines = [f"refused {refusal}"] if refusal else sheet_lines(*parts)
    return "".join(line + "\n" for line in lines)
