"""The stored files of the gate: what its programs read, and have to write.

    python3 tests/stored.py           writes them
    python3 tests/stored.py --check   compares them with what would be written

`rt` gives a program the file stdin of its folder and compares what it writes
with the file stdout.
"""
import random
import sys
from collections import Counter

import kept
from above import ROOT
from boundaries import CASES as BOUNDARIES
from document_cases import LISTING, SHEET
from hand_cases import CASES
from listing_cases import TOO_LONG, gate_sheets
from model.listing import listing
from model.points import flat
from outcomes import RULES, answered, missing
from probe_protocol import packed, request
from probe_requests import limit_requests, make_requests
from sheet_cases import make_cases

EACH, TELLING = 8, 2    # requests of each rule, and of what else is told
SMALL = 5_000           # bytes of a request and its answer
TRIED = 4_000           # requests that they are picked from
LARGE = {("write", 11)}  # outcomes that no small request has

TO_THE_END = -1         # the size of a sheet that the end of the input ends


def joined(lines):
    return "".join(line + "\n" for line in lines).encode()


# The probe: the cases by hand, the boundaries, and a few requests of each
# outcome

def case_requests():
    requests = []
    for what, name, words, line in CASES:
        requests.append(request(name, words))
        assert answered(requests[-1])[0] == line, what
    return requests


def boundary_requests():
    requests = []
    for what, name, words, begun in BOUNDARIES:
        requests.append(request(name, words))
        assert answered(requests[-1])[0].startswith(begun), what
    return requests


def most_of(outcome, size):
    """How many requests of this outcome and size are stored."""
    if size > SMALL:
        return 1 if outcome in LARGE else 0
    name, one = outcome
    return EACH if one in RULES[name] else TELLING


def picked_requests():
    """A few of each outcome, small ones."""
    picked, tally = [], Counter()
    for one in make_requests(random.Random(2), TRIED):
        line, outcomes = answered(one)
        size = len(one) + len(line)
        if any(tally[each] < most_of(each, size) for each in outcomes):
            picked.append(one)
            tally.update(outcomes)
    return picked


def probe_files():
    requests = (case_requests() + boundary_requests() + limit_requests()
                + picked_requests())
    cut_off = requests[0][:-1]
    requests.append(cut_off)
    lines, outcomes = zip(*map(answered, requests))
    lacking = missing(Counter(flat(outcomes)))
    assert not lacking, lacking
    return b"".join(requests), joined(lines)


# The other programs

def sheet_cases_files():
    cases = make_cases()
    return b"".join(cases.requests), joined(cases.lines)


def listing_files():
    assert listing(SHEET) == LISTING
    return SHEET, LISTING.encode()


def listing_cases_files():
    """Each sheet after its length, and last one that the input's end ends."""
    sheets = gate_sheets()
    stdin = b"".join(packed([len(data)]) + data for data in sheets)
    stdin += packed([TO_THE_END]) + TOO_LONG
    return stdin, "".join(map(listing, [*sheets, TOO_LONG])).encode()


def stored_files():
    """Each file's path and contents."""
    programs = {"sheet_cases": sheet_cases_files, "probe": probe_files,
                "listing": listing_files, "listing_cases": listing_cases_files}
    return {ROOT / "crates" / program / name: contents
            for program, make in programs.items()
            for name, contents in zip(("stdin", "stdout"), make())}


if __name__ == "__main__":
    sys.exit(kept.run(stored_files(), sys.argv[1:], __doc__))
