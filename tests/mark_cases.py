"""Sheets and number lists with quadratic records: marks, sizes, neighbours,
and the order of refusals. Each refusal stands here by hand.

`cases` takes what is made here, as sheet_cases.py has it.
"""
from makers import (LONGEST_QUADRATICS, MOST_QUADRATICS, jump, number_list,
                    on_width, quadratic, sheet, straight)
from model.constants import HIGHEST, LEAST, LOWEST, MOST, MOST_BYTES, QUADRATIC
from places import COUNT, LISTED_COUNT, put, swap
from spoilt import (BENT, CURVED, CURVES, FAR, LAST, LISTED_LAST, LISTED_ONLY,
                    MIXED, ONLY, QUADRATIC_GAP, TOO_FAR)

GOOD = [256, 257, 261, 266, 267]
OF_CUBICS = [0, 1, 10, 11]
NO_LEVEL = [12, 13, 255, 268, 269, 511, 512, 513, 523, 524, 767, 768, 4_096,
            32_767, 32_768, 65_279, 65_280, 65_535]
# In a number list a mark may be larger, or below 0.
NO_LEVEL_LISTED = NO_LEVEL + [
    65_536, 65_536 + 256, 65_536 + 267, 2**24 + 256, MOST - 255, MOST,
    -1, -11, -245, -255, -256, -257, -512, -65_280, -65_536, LEAST + 256,
    LEAST + 11, LEAST]


def sheet_marked(made, k, mark):
    return put(made.data, (made.records[k].mark, mark))


def list_marked(made, k, mark):
    return swap(made.listed, (made.places[k].mark, mark))


def add_marks(cases):
    for made, k in ((CURVES, 1), (MIXED, 0)):
        for mark in GOOD:
            cases.read(0, sheet_marked(made, k, mark))
            cases.write(0, list_marked(made, k, mark), len(made.data))
        for mark in NO_LEVEL:
            cases.read(3, sheet_marked(made, k, mark))
        for mark in NO_LEVEL_LISTED:
            cases.write(3, list_marked(made, k, mark))
    # Without its mark a quadratic record is too short: the next one is none,
    # or the end is passed.
    for mark in OF_CUBICS:
        cases.read(13, sheet_marked(CURVES, 0, mark))
        cases.read(15, sheet_marked(CURVES, 1, mark))
        cases.write(17, list_marked(CURVES, 1, mark))
    # With a mark a cubic record is too long.
    for mark in GOOD:
        cases.read(16, sheet_marked(MIXED, 1, mark))
        cases.write(17, list_marked(MIXED, 1, mark))


def add_sizes(cases):
    for segments in (1, 2, 5):
        cases.both(0, straight(segments, 3, (9, 8, 7), (1, -2, 3), QUADRATIC))
    # Seven points are three segments of a quadratic, and two of a cubic.
    three, two = straight(3, degree=QUADRATIC), straight(2)
    assert three.points == two.points
    cases.both(0, three, two)
    data, listed = sheet(three), number_list(three)
    for segments, in_sheet, in_list in [(0, 14, 14), (1, 16, 17), (2, 16, 17),
                                        (4, 15, 17), (64, 15, 17),
                                        (65, 14, 14), (256, 14, 14)]:
        cases.read(in_sheet, put(data, (ONLY.segments, segments)))
        cases.write(in_list, swap(listed, (LISTED_ONLY.segments, segments)))
    cases.read(0, put(data, (ONLY.segments, 2), (ONLY.mark, 0)))
    cases.read(15, put(data, (ONLY.mark, 0)))
    cases.write(17, swap(listed, (LISTED_ONLY.mark, 0)))
    # Cut at every byte and at every number, and with more of them.
    for size in range(LAST.start, LAST.end):
        cases.read(15, CURVES.data[:size])
    for length in range(LISTED_LAST.start, LISTED_LAST.end):
        cases.write(17, CURVES.listed[:length])
    for more in (1, 6):
        cases.read(16, CURVES.data + bytes(more))
        cases.write(17, CURVES.listed + [0] * more)


def add_neighbours(cases):
    # 1,023 is accepted and 1,024 refused: each pair of a path of two segments,
    # so also before and after the join, in x, y and width, up and down.
    for after in range(4):
        for ways in [(1, 0, 0), (0, -1, 0), (0, 0, 1), (-1, 1, -1)]:
            for expected, gap in [(0, QUADRATIC_GAP - 1), (2, QUADRATIC_GAP)]:
                cases.both(expected, jump(2, after, *[gap * way
                                                      for way in ways],
                                          degree=QUADRATIC))
    # Each path of a sheet has the reach of its own degree.
    cases.both(0, jump(1, 0, TOO_FAR, degree=QUADRATIC), BENT)
    cases.both(2, CURVED, jump(1, 0, TOO_FAR))
    cases.both(2, quadratic(0, on_width(0, 0, LOWEST, HIGHEST, 0)))
    # Every place of a path: 1 alone.
    for good, bad in [(HIGHEST, HIGHEST + 1), (LOWEST, LOWEST - 1)]:
        still = straight(1, 0, (good, good, good), (0, 0), QUADRATIC)
        cases.both(0, still)
        for place, listed in zip(CURVES.records[0].numbers,
                                 CURVES.places[0].numbers):
            cases.read(1, put(sheet(still, still), (place, bad)))
            cases.write(1, swap(number_list(still, still), (listed, bad)))


def add_order(cases):
    path, place = LAST, LISTED_LAST
    # 14 before 3, whatever the mark is.
    for mark in (268, 512, 65_535):
        cases.read(14, put(CURVES.data, (path.segments, 0),
                           (path.mark, mark)))
        cases.write(14, swap(CURVES.listed, (place.segments, 65),
                             (place.mark, mark)))
    cases.write(14, swap(CURVES.listed, (place.segments, 0),
                         (place.mark, -256)))
    # 3 before 15 and 17 for the points.
    cases.read(3, put(CURVES.data, (path.segments, 64), (path.mark, 268)))
    cases.read(3, put(CURVES.data, (path.mark, 512))[:-1])
    cases.write(3, swap(CURVES.listed, (place.mark, 268))[:-1])
    # 15 and 17 for the points before 1 and 2.
    cases.read(15, put(CURVES.data, (path.x(0), FAR))[:-1])
    cases.read(15, put(CURVES.data, (path.x(0), 9_000))[:-1])
    cases.write(17, swap(CURVES.listed, (place.x(0), FAR))[:-1])
    # 1 over all points before 2; both before 16, 17 and 9.
    cases.read(1, put(CURVES.data, (path.x(0), 9_000), (path.width(2), FAR)))
    cases.write(1, swap(CURVES.listed, (place.x(0), 9_000),
                        (place.width(2), FAR)))
    cases.read(2, put(CURVES.data, (path.x(0), 9_000)) + bytes(1))
    cases.write(2, swap(CURVES.listed, (place.x(0), 9_000)) + [0])
    cases.read(2, put(CURVES.data, (path.width(0), 9_000)), 0)
    cases.write(2, swap(CURVES.listed, (place.width(0), 9_000)), 0)
    cases.read(9, CURVES.data, len(CURVES.listed) - 1)
    cases.write(9, CURVES.listed, len(CURVES.data) - 1)


def add_large(cases):
    # As many paths as are counted: one more is refused 12.
    data, listed = sheet(*MOST_QUADRATICS), number_list(*MOST_QUADRATICS)
    assert (len(data), len(listed)) == (26_636, 11_267)
    cases.read(0, data, len(listed))
    cases.write(0, listed, len(data))
    cases.read(12, put(data, (COUNT, 1_025)))
    cases.write(12, swap(listed, (LISTED_COUNT, 1_025)))
    # As many bytes as a sheet may have, and a segment more, 12 bytes.
    data, listed = sheet(*LONGEST_QUADRATICS), number_list(*LONGEST_QUADRATICS)
    assert (len(data), len(listed)) == (MOST_BYTES, 16_289)
    cases.read(0, data, len(listed))
    cases.write(0, listed, len(data))
    longer = [*LONGEST_QUADRATICS[:-1], straight(11, degree=QUADRATIC)]
    cases.write(11, number_list(*longer), MOST_BYTES + 12)


def add_all(cases):
    for add in (add_marks, add_sizes, add_neighbours, add_order, add_large):
        add(cases)
