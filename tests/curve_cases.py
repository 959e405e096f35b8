"""What a picture has of a path by its degree: a curve, and a line of text."""
import sys

from above import ROOT
from makers import sheet, straight
from model.constants import QUADRATIC
from model.listing import listing

sys.path.insert(0, str(ROOT / "tools"))

from frame import read_drawn  # noqa: E402
from picture import curve, notes  # noqa: E402

CASES = [
    (straight(1), "M0 0C1 0 2 0 3 0", "1 segment"),
    (straight(2), "M0 0C1 0 2 0 3 0 4 0 5 0 6 0", "2 segments"),
    (straight(1, degree=QUADRATIC), "M0 0Q1 0 2 0", "1 quadratic segment"),
    (straight(2, degree=QUADRATIC), "M0 0Q1 0 2 0 3 0 4 0",
     "2 quadratic segments"),
]


def check_curves(tally):
    for path, data, segments in CASES:
        drawn, = read_drawn(sheet(path), listing(sheet(path)))
        tally.equal(f"curve: {segments}", curve(drawn), f'<path d="{data}"/>')
        said, = notes([drawn], 1)
        tally.equal(f"text: {segments}", said.split(" from")[0],
                    f"path 0: {segments}")
