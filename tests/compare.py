"""The differential test: the programs `probe` and `listing` and the model.

    python3 tests/compare.py [--seed SEED] [--number NUMBER]
                             [--sheets NUMBER] [--root FOLDER]

Requests made by chance go to the probe, a batch to each run, and every line
that it answers has to be the model's. Sheets go to the listing, one to each
run, and every byte that it prints has to be the model's. Programs that are
missing or out of date are built first. FOLDER is the repository they belong to.

It ends with "N passed, N failed", and with status 0 only if none failed.
"""
import argparse
import sys
from collections import Counter
from itertools import zip_longest

from above import ROOT
from document_cases import SHEET
from listing_cases import TOO_LONG, make_sheets
from makers import LONGEST
from model.listing import listing
from outcomes import QUADRATICS, RULES, TOLD, answered, missing
from probe_protocol import in_words
from probe_requests import limit_requests, make_batch
from programs import build_stale, run_program
from tally import Tally

BATCH = 1_000
PROGRESS = 5_000        # requests from one line of progress to the next
ENOUGH = 20_000         # requests of which no outcome may be missing
SHOWN = 5               # differences that are shown
CUT = 400               # characters of each that are shown


class Report(Tally):
    """The model's answers beside the program's; some failures are shown."""

    def equal(self, what, model, program):
        self.holds(what, model == program, (model, program))

    def tell(self, what, seen):
        if self.failed <= SHOWN:
            model, program = seen
            place = first_difference(model, program)
            print(f"DIFFERENCE at character {place}")
            print(f"  of      {cut(what, 0)}")
            print(f"  model   {cut(model, place)}")
            print(f"  program {cut(program, place)}", flush=True)

    def good_end(self, what, ended):
        """Exit status 0, and nothing on standard error."""
        self.equal("the end of " + what, str((0, "")),
                   str((ended.status, ended.errors)))


def first_difference(one, other):
    pairs = enumerate(zip_longest(one, other))
    return next(place for place, (a, b) in pairs if a != b)


def cut(text, place):
    """The part of a long text that has the named place."""
    start = max(0, place - CUT // 2)
    part = repr(text[start:start + CUT])
    return part if len(text) <= CUT else f"{part} of {len(text)} characters"


def in_pieces(data):
    """A few pieces, of an odd size, so that words are torn apart."""
    size = len(data) // 14 * 2 + 1
    return [data[place:place + size] for place in range(0, len(data), size)]


# The probe

def compare_batch(report, requests, root):
    """One run of the probe; what came out of each request by the model."""
    ended = run_program("probe", [b"".join(requests)], root)
    return compare_answers(report, requests, ended)


def compare_answers(report, requests, ended):
    report.good_end("the probe", ended)
    lines = ended.output.split("\n")
    report.equal("what follows the probe's last line",
                 str([""]), str(lines[len(requests):]))
    outcomes = []
    for request, line in zip_longest(requests, lines[:len(requests)],
                                     fillvalue="no line"):
        model_line, told = answered(request)
        report.equal(in_words(request), model_line, line)
        outcomes += told
    return outcomes


def compare_pieces(report, seed, root):
    """One run of the probe whose input comes bit by bit."""
    requests = [one for one in make_batch(seed, 20) if len(one) < 1_000]
    ended = run_program("probe", in_pieces(b"".join(requests)), root)
    compare_answers(report, requests, ended)


def compare_requests(report, seed, number, root):
    compare_batch(report, limit_requests(), root)
    compare_pieces(report, seed, root)
    tally, sent = Counter(), 0
    while sent < number:
        size = min(BATCH, number - sent)
        requests = make_batch(f"{seed} {sent}", size)
        tally.update(compare_batch(report, requests, root))
        sent += size
        if sent % PROGRESS == 0 or sent == number:
            print(f"{sent} requests, {report.failed} failed", flush=True)
    show_tally(tally)
    if number >= ENOUGH:
        report.equal("outcomes that no request had", "[]",
                     str(missing(tally)))


def show_tally(tally):
    for name, rules in RULES.items():
        outcomes = rules | QUADRATICS.get(name, set())
        counts = {one: tally[name, one] for one in sorted(outcomes, key=str)}
        print(f"{name}: {sum(counts.values())};",
              ", ".join(f"{one}: {count}" for one, count in counts.items()))
        for what, ways in TOLD.items():
            telling = [tally[name, one] for one in ways.get(name, [])]
            if telling:
                print(f"    {what} told in {len(telling)} ways, each",
                      f"{min(telling)} times or more")


# The listing

def compare_sheet(report, data, pieces, root):
    ended = run_program("listing", pieces, root)
    what = f"sheet of {len(data)} bytes {data.hex()}"
    report.good_end(what, ended)
    report.equal(what, listing(data), ended.output)


def compare_sheets(report, seed, number, root):
    sheets = make_sheets(seed, number)
    for data in sheets:
        compare_sheet(report, data, [data], root)
    for data in (SHEET, LONGEST, TOO_LONG):
        compare_sheet(report, data, in_pieces(data), root)
    print(f"{len(sheets)} sheets, {report.failed} failed", flush=True)


def main():
    options = argparse.ArgumentParser(
        description="compares the programs with the model")
    options.add_argument("--seed", type=int, default=1)
    options.add_argument("--number", type=int, default=20_000,
                         help="requests for the probe; 0: it is not run")
    options.add_argument("--sheets", type=int, default=320,
                         help="sheets for the listing; 0: it is not run")
    options.add_argument("--root", default=ROOT,
                         help="the repository whose programs are run")
    chosen = options.parse_args()
    report = Report()
    if chosen.number > 0:
        build_stale(["probe"], chosen.root)
        compare_requests(report, chosen.seed, chosen.number, chosen.root)
    if chosen.sheets > 0:
        build_stale(["listing"], chosen.root)
        compare_sheets(report, chosen.seed, chosen.sheets, chosen.root)
    sys.exit(report.end())


if __name__ == "__main__":
    main()
