"""The model's own test: document 01's cases, and what is easily got wrong.

    python3 tests/model_cases.py

Every expected number was reckoned by hand or is the document's. Beside them,
random drawings and paths of both degrees and every finest level are held to
the exact curve and to what orders 8, 9 and 10 say of them, and listings to
those that are proved.
"""
import random
import re
import sys

from above import ROOT
from boundaries import CASES as BOUNDARIES
from chance import (FINEST_LEVELS, random_degree, random_finest, random_level,
                    random_limits, random_points)
from document_cases import FINEST, LISTING, OLD_SHEET, SHEET, SHEET_NUMBERS
from exact_curve import (check_as_cubics, check_distance, check_extremes,
                         check_farthest, check_lists, check_positions,
                         check_start)
from hand_cases import CASES
from makers import (LIMITS, LONGEST, LONGEST_QUADRATICS, LONGEST_SEGMENTS,
                    MOST_QUADRATICS, cubic, number_list, on_x, point,
                    quadratic, sheet, straight)
from model import constants
from model.constants import CUBIC, ENTRY_NUMBERS, LEAST, MOST, QUADRATIC
from model.drawing import (DOUBLE, HALVE, STEP, ZEROS, choose, last_position,
                           operate, shown, start)
from model.listing import listing
from model.path import Shape, draw, length, measure, path_entries
from model.points import Point, flat, numbers_in, points_in
from model.rules import reach
from model.sheet import mark_of, marked, read_sheet, sheet_bytes, write_sheet
from old_form import BY_HAND, REFUSALS, old_sheet, random_old_sheets
from outcomes import answered
from places import COUNT, UPPER, offset, put, swap
from probe_protocol import request
from quadratic_cases import LISTING as QUADRATIC_LISTING
from quadratic_cases import NUMBERS as QUADRATIC_NUMBERS
from quadratic_cases import SHEET as QUADRATIC_SHEET
from spoilt import (FIRST, LISTED_ONLY, ONE, ONE_LIST, ONLY, SECOND,
                    SPOILT_LISTS, SPOILT_SHEETS, TWO)
from tally import Tally

ROOM = 40_000           # for every sheet and every number list


def with_x(level, q, *registers, finest=FINEST):
    """A drawing whose other coordinates stand still at 0."""
    return ZEROS._replace(finest=finest, level=level, q=q, x=registers)


# The document

NUMBERS = [("POINT_NUMBERS", 3), ("ENTRY_NUMBERS", 4), ("LOWEST", -16_384),
           ("HIGHEST", 16_383), ("FARTHEST", {2: 1_023, 3: 682}),
           ("DEGREES", (2, 3)), ("QUADRATIC_MARK", 256), ("LEAST_FINEST", 6),
           ("MOST_FINEST", 12), ("SHEET_FINEST", 11),
           ("LEAST", -2_147_483_648), ("MOST", 2_147_483_647),
           ("ONE_UNIT", 65_536), ("STANDARD_LIMITS", (45_875, 22_937)),
           ("MOST_SEGMENTS", 64), ("MOST_PATHS", 1_024),
           ("MOST_BYTES", 32_768)]


def check_numbers(tally):
    for name, number in NUMBERS:
        tally.equal(name, getattr(constants, name), number)
    for degree, points, numbers in (CUBIC, 193, 579), (QUADRATIC, 129, 387):
        tally.equal("points of 64 segments", points_in(degree, 64), points)
        tally.equal("numbers of 64 segments", numbers_in(degree, 64), numbers)
    tally.equal("ends", [last_position(finest) for finest in FINEST_LEVELS],
                [64, 128, 256, 512, 1_024, 2_048, 4_096])
    for degree, reaches in (CUBIC, [20, 42, 84, 170, 340, 682, 682]), (
            QUADRATIC, [31, 63, 127, 255, 511, 1_023, 1_023]):
        tally.equal("reaches", [reach(degree, finest)
                                for finest in FINEST_LEVELS], reaches)


def check_document(tally):
    for what, name, words, line in CASES:
        tally.equal(f"case {what}, {name}",
                    answered(request(name, words))[0], line)
    tally.equal("the sheet of A", SHEET, ONE)
    tally.equal("the number list of A", SHEET_NUMBERS, ONE_LIST)
    tally.equal("the listing of A", listing(SHEET), LISTING)


def check_boundaries(tally):
    for what, name, words, begun in BOUNDARIES:
        tally.holds(what, answered(request(name, words))[0].startswith(begun))


# The two listings that are proved

PROVED = ROOT / "crates" / "listing_text" / "proofs" / "Example.antt"

SECOND_PATHS = [cubic(4, [(0, -1, 9), (-2, 1, 12), (0, -1, 7), (-2, 0, -3),
                          (-2, -1, 4), (-2, 0, 0), (-2, -1, -5)]),
                cubic(2, [(1, 1, 40), (0, 2, 31), (2, 1, 20), (0, 2, 10)])]


OUTLINE = quadratic(0, [(x, 0, 0) for x in (0, 1, 2, 4, 6)])


def proved_bytes(name):
    """The list of this name, as it stands in the proof."""
    text = PROVED.read_text("utf-8")
    rows = re.search(rf"^{name} =\n((?: .*\n)+)", text, re.M)
    return bytes(map(int, re.findall(r"\d+", rows[1])))


def check_proved(tally):
    second = sheet_bytes(60_000, 26_000, SECOND_PATHS)
    tally.equal("the second sheet", proved_bytes("second_bytes"), second)
    tally.equal("its proved listing", proved_bytes("second_text"),
                listing(second).encode())
    tally.equal("the proved listing of A", proved_bytes("document_text"),
                LISTING.encode())
    outline = sheet_bytes(*LIMITS, [OUTLINE])
    tally.equal("the outline's sheet", proved_bytes("outline_bytes"), outline)
    tally.equal("its proved listing", proved_bytes("outline_text"),
                listing(outline).encode())


# Drawings

def check_choosing(tally):
    check = tally.equal
    check("an increment is a floor before it is a magnitude",
          choose(with_x(1, 0, 0, 0, -131_073, 0), 65_536, 0), (0, HALVE))
    check("the doubled increment is made of floors",
          choose(with_x(1, 0, 0, -1, 65_537, 0), 65_536, 65_536), (0, DOUBLE))
    check("a doubled c beyond 32 bits",
          choose(with_x(11, 0, 0, MOST, MOST, 0), 1, 1), (0, STEP))
    check("a magnitude beyond 32 bits",
          choose(with_x(0, 0, 0, 0, LEAST, 0), 1, 0), (0, HALVE))
    still = with_x(1, 0, 0, 0, 0, 0)
    check("nothing is smaller than 0", choose(still, 65_536, 0), (0, STEP))
    check("0 is smaller than 1", choose(still, 65_536, 1), (0, DOUBLE))
    edge = with_x(0, 0, 0, 0, 5, 0)
    check("as large as upper", choose(edge, 5, 5), (0, STEP))
    check("larger than upper", choose(edge, 4, 4), (0, HALVE))
    check("4 before 10", choose(with_x(12, 1, 0, 0, 0, 0), 0, 0), (4, 0))
    check("10 before 5", choose(with_x(12, 2_048, 0, 0, 0, 0), 1, 0), (10, 0))
    check("5", choose(with_x(0, 2_048, 0, 0, 0, 0), 1, 0), (5, 0))


def check_edges(tally):
    for d, x in [(MOST, 32_768), (2**31 - 32_769, 32_767),
                 (2**31 - 32_768, 32_768), (LEAST, -32_768)]:
        tally.equal(f"shown for d = {d}",
                    shown(with_x(0, 0, 0, 0, 0, d)), point(x))
    for number in (13, 32, 43, 2**32 - 1):
        for made_up in (with_x(number, 0, 0, 0, 0, 0),
                        with_x(0, 0, 0, 0, 0, 0, finest=number),
                        with_x(number, 0, 0, 0, 0, 0, finest=number)):
            tally.equal(f"level or F {number}", operate(STEP, made_up),
                        (10, made_up))
    made_up = with_x(0, 0, MOST, LEAST, 0, 0)
    tally.equal("a new b outside 32 bits", operate(HALVE, made_up),
                (10, made_up))
    tally.equal("1 before a difference is taken",
                start(CUBIC, on_x(LEAST, MOST, 0, 0), FINEST, 0), (1, ZEROS))
    tally.equal("1 before a difference of a quadratic",
                start(QUADRATIC, on_x(LEAST, MOST, 0), FINEST, 0), (1, ZEROS))


# Paths

def segment(*numbers):
    """One cubic's numbers: these first, and the last of them again."""
    more = numbers_in(CUBIC, 1) - len(numbers)
    return [*numbers, *[numbers[-1]] * more]


def shape(segments, level, finest=FINEST):
    return Shape(CUBIC, segments, finest, level)


def check_paths(tally):
    check, limits = tally.equal, LIMITS
    # 3(3S + 1) is 2^32 - 1 for the first, and 2^32 + 8 for the second.
    for segments in (477_218_588, 477_218_589):
        check("3(3S+1) does not wrap round",
              measure(shape(segments, 0), limits, [0] * 8), (14, 0, 0))
    check("two numbers a point", measure(shape(1, 0), limits, [0] * 8),
          (14, 0, 0))
    for bad in (point(700, 16_384), point(700, 0, 16_384)):
        points = on_x(0, 700, 700, 700, 700, 700, 700)
        points[5] = bad
        check("1 over all points before 2",
              measure(shape(2, 0), limits, flat(points)), (1, 0, 0))
    points = [point(x, y) for x, y in
              [(2, 2), (1, 1), (4, 4), (2, 1), (2, 3), (4, 0), (2, 2)]]
    *_, numbers = draw(100, shape(2, 1), limits, flat(points))
    check("each segment starts at the path's level",
          numbers[::ENTRY_NUMBERS], [0, 2048, 3072, 4096])
    fives = segment(5)
    whole = flat([position, *fives[:ENTRY_NUMBERS - 1]]
                 for position in (0, 2048))
    path = shape(1, 0), limits, fives
    check("no room", draw(0, *path), (9, 0, 0, []))
    check("one short", draw(len(whole) - 1, *path), (9, 0, 0, []))
    check("exact", draw(len(whole), *path), (0, 2, 0, whole))
    *_, points = straight(1, 0, (0, 0, 5), (682, 682, -600))
    check("a long segment", measure(shape(1, 0), limits, flat(points)),
          (0, 2_049, 2_046 * 1_414))
    check("the most points of a sheet's path",
          measure(shape(64, 11), (65_536, 0), [9] * 579), (0, 131_073, 0))


def check_path_order(tally):
    order = [(14, shape(0, 12, 5), (0, 0), segment(16_384)),
             (24, shape(1, 12, 5), (0, 0), segment(16_384)),
             (1, shape(1, 12), (0, 0), segment(16_384, 0)),
             (2, shape(1, 12), (0, 0), segment(700, 0)),
             (3, shape(1, 12), (0, 0), segment(0)),
             (4, shape(1, 0), (0, 0), segment(0))]
    for refusal, *path in order:
        tally.equal(f"{refusal} in its order", measure(*path), (refusal, 0, 0))
        tally.equal(f"{refusal} before 9", draw(0, *path), (refusal, 0, 0, []))


# Sheets

def check_reading(tally):
    def check(name, data, refusal):
        tally.equal(name, read_sheet(data, ROOM)[0], refusal)

    wrong = offset(1), SECOND.start + 1
    check("4N does not wrap round", put(ONE, (COUNT, 2**30)), 12)
    check("12 before 4", put(ONE, (COUNT, 1_025), (UPPER, 0)), 12)
    check("13 bytes without a path", sheet() + bytes(1), 16)
    check("14 of a record before 13 of the next",
          put(TWO, (FIRST.segments, 0), wrong), 14)
    check("cut before a record, its offset right", TWO[:SECOND.start], 15)
    check("cut before a record, its offset wrong",
          put(TWO, wrong)[:SECOND.start], 13)
    check("3 before 15 for the points",
          put(ONE, (ONLY.segments, 64), (ONLY.mark, 12)), 3)
    check("2 of a record before 1 of the next",
          put(TWO, (FIRST.x(3), 700), (SECOND.x(0), 16_384)), 2)
    check("upper is unsigned", put(ONE, (UPPER, 2**31)), 4)
    check("an offset is unsigned", put(ONE, (offset(0), 2**32 - 1)), 13)
    tally.equal("no path", listing(sheet()), "paths 0\n")


def check_longest(tally):
    tally.equal("its paths and segments",
                (len(LONGEST_SEGMENTS), sum(LONGEST_SEGMENTS)), (46, 1_784))
    tally.equal("bytes of the longest sheet", len(LONGEST), 32_768)
    for what, data, refusal in [("whole", LONGEST, 0),
                                ("a byte less", LONGEST[:-1], 15),
                                ("a byte more", LONGEST + bytes(1), 11)]:
        tally.equal(f"the longest sheet, {what}", read_sheet(data, ROOM)[0],
                    refusal)
    numbers = number_list(*map(straight, LONGEST_SEGMENTS))
    tally.equal("its numbers", len(numbers), 16_289)
    tally.equal("written", write_sheet(numbers, 32_768), (0, LONGEST))
    tally.equal("read", read_sheet(LONGEST, 16_289), (0, numbers))
    tally.equal("a byte short", write_sheet(numbers, 32_767), (9, b""))
    tally.equal("a number short", read_sheet(LONGEST, 16_288), (9, []))
    paths = [straight(1)] * 1_023
    tally.equal("1,023 paths", len(sheet(*paths)), 32_748)
    tally.equal("1,024 paths do not fit",
                write_sheet(number_list(*paths, straight(1)), ROOM), (11, b""))
    for what, paths, size in [("1,024 quadratics", MOST_QUADRATICS, 26_636),
                              ("46 quadratics", LONGEST_QUADRATICS, 32_768)]:
        numbers, data = number_list(*paths), sheet(*paths)
        tally.equal(f"bytes of {what}", len(data), size)
        tally.equal(f"{what} read", read_sheet(data, ROOM), (0, numbers))
        tally.equal(f"{what} written", write_sheet(numbers, ROOM), (0, data))


def check_writing(tally):
    def check(name, numbers, refusal):
        tally.equal(name, write_sheet(numbers, ROOM)[0], refusal)

    big = straight(64)
    check("12 looks at the count alone", [1_024, 65_536, 32_768], 17)
    check("33,826 bytes", number_list(*[big] * 29), 11)
    tally.equal("that many", len(sheet(*[big] * 29)), 33_826)
    check("17 before 11", number_list(*[big] * 29) + [0], 17)
    check("a bad path before 11",
          number_list(*[big] * 60, straight(1, 12)), 3)
    check("3(3S+1) is not reckoned",
          swap(ONE_LIST, (LISTED_ONLY.segments, MOST)), 14)
    check("a negative level", swap(ONE_LIST, (LISTED_ONLY.mark, -1)), 3)
    check("a coordinate is not cut to 16 bits",
          swap(ONE_LIST, (LISTED_ONLY.x(0), 65_536)), 1)
    check("a width is not cut to 16 bits",
          swap(ONE_LIST, (LISTED_ONLY.width(3), 65_536)), 1)


def check_spoilt(tally):
    for number, sheets in SPOILT_SHEETS.items():
        for data in sheets:
            tally.equal(f"sheet {data.hex()}", read_sheet(data, ROOM),
                        (number, []))
            tally.equal(f"listing of {data.hex()}", listing(data),
                        f"refused {number}\n")
    for number, lists in SPOILT_LISTS.items():
        for numbers in lists:
            tally.equal(f"list {numbers}", write_sheet(numbers, ROOM),
                        (number, b""))


# Order 8

def places_of(entries):
    """The entries without their widths."""
    return [entry[:-1] for entry in entries]


def check_widths(tally):
    """Of random paths: what their widths change, and what they do not."""
    chance = random.Random(8)
    for _ in range(90):
        degree, finest = random_degree(chance), random_finest(chance)
        segments = chance.randint(1, 3)
        points = [Point(*each) for each in
                  random_points(chance, degree, segments, finest)]
        path = (Shape(degree, segments, finest, random_level(chance, finest)),
                random_limits(chance))
        entries = path_entries(*path, points)
        joins = [tuple(entry[1:]) for entry in entries
                 if entry.position % last_position(finest) == 0]
        tally.equal(f"the joins of {points}", joins, points[::degree])
        still = [each._replace(width=0) for each in points]
        without = path_entries(*path, still)
        tally.equal(f"the places of {points}", places_of(entries),
                    places_of(without))
        tally.equal(f"the length of {points}", length(entries),
                    length(without))


def check_old_form(tally):
    """A sheet of the old form with any path in it is always refused."""
    for refusal, data in [(15, OLD_SHEET), *BY_HAND]:
        tally.equal(f"old sheet {data.hex()}", read_sheet(data, ROOM),
                    (refusal, []))
    met = set()
    for count, data in random_old_sheets(54, 400):
        refusal, numbers = read_sheet(data, ROOM)
        may_be = {15} if count == 1 else REFUSALS
        tally.holds(f"an old sheet of {count} paths",
                    refusal in may_be and numbers == [], refusal)
        met.add(refusal)
    tally.equal("refusals of old sheets", met, REFUSALS)
    tally.equal("without a path the forms are one",
                old_sheet(*LIMITS, []), sheet())
    tally.equal("and accepted", read_sheet(sheet(), ROOM),
                (0, [0, *LIMITS]))


# Order 10

MARKS = [(255, CUBIC, 255), (256, QUADRATIC, 0), (267, QUADRATIC, 11),
         (268, QUADRATIC, 12), (511, QUADRATIC, 255), (512, QUADRATIC, 256),
         (65_535, QUADRATIC, 65_279), (0, CUBIC, 0), (12, CUBIC, 12)]


def check_marks(tally):
    for mark, degree, level in MARKS:
        tally.equal(f"mark {mark}", marked(mark), (degree, level))
        tally.equal(f"level {level} marked", mark_of(degree, level), mark)
    tally.equal("the sheet of Q", QUADRATIC_SHEET,
                sheet(straight(1, degree=QUADRATIC)))
    tally.equal("its numbers", read_sheet(QUADRATIC_SHEET, ROOM),
                (0, QUADRATIC_NUMBERS))
    tally.equal("its listing", listing(QUADRATIC_SHEET), QUADRATIC_LISTING)


def main():
    tally = Tally()
    for check in (check_numbers, check_document, check_boundaries,
                  check_proved, check_choosing, check_edges, check_start,
                  check_paths, check_path_order, check_reading, check_longest,
                  check_writing, check_spoilt, check_distance,
                  check_extremes, check_farthest, check_lists, check_positions,
                  check_as_cubics, check_widths, check_old_form, check_marks):
        check(tally)
    sys.exit(tally.end())


if __name__ == "__main__":
    main()
