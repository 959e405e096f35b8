"""Tests ./list from end to end.

    python3 tests/door.py

First the lanes and curves of its pictures. Then the script of this repository, with the
program that the kit builds: it is built where it is missing. Where a listing
is not taken whole, the program is tried by itself too. Then a copy of the
script with a kit that only pretends: its rt and its loader are small scripts,
so that builds and programs can fail. The last line is 'N passed, N failed'.
"""
import os
import resource
import signal
import subprocess
import sys
import tempfile
from contextlib import contextmanager
from pathlib import Path
from xml.dom import minidom

from above import ROOT
from curve_cases import check_curves
from document_cases import LISTING, OLD_SHEET, SHEET
from lane_cases import check_lanes
from makers import sheet, zigzag
from model.constants import MOST_SEGMENTS
from model.listing import listing
from old_form import BY_HAND
from pretence import SCRIPT, Pretence, run
from programs import program_command
from spoilt import two_of_each
from tally import Tally

EXAMPLES = ROOT / "examples"
ACCEPTED = {"document": 0, "empty": 0, "letters": 2, "outline": 2, "paths": 4, "slow-start": 1, "spiral": 1}   # and their lanes
PICTURES = ["letters", "outline"]                   # examples that docs/ has a picture of
MEANINGS = {2: "682 apart in x, in y or in width, in a quadratic path more than 1,023;", 3: "with 256 added in a quadratic path"}
INSTALLERS = "apt apt-get apk brew dnf pacman pip3 sudo yum zypper".split()
DOCUMENT = LISTING.encode()
LONG = sheet(zigzag(MOST_SEGMENTS, 0, 600))         # its listing is too long for a pipe
FRONT = 100_000                                     # bytes of it that a short file has room for


class Answers(Tally):
    """How many of the script's answers passed and failed so far."""

    def answer(self, name, ended, status, output, *said):
        """Status and standard output are these; standard error has these words, or nothing."""
        complaint = ended.stderr.decode()
        fits = all(word in complaint for word in said) if said else complaint == ""
        self.holds(name, (ended.returncode, ended.stdout) == (status, output) and fits, ended)


# The script of this repository

def shapes_in(picture, groups, shape):
    """The shapes of one kind in the groups of this name."""
    if not picture:
        return []
    named = [group for group in minidom.parseString(picture).getElementsByTagName("g") if group.getAttribute("class") == groups]
    return [one for group in named for one in group.getElementsByTagName(shape)]


def hints_in(picture):
    """What the dots tell under the mouse."""
    return [dot.getElementsByTagName("title")[0].firstChild.data for dot in shapes_in(picture, "entries", "circle")]


def hints_of(text):
    """The entries of a listing, as the dots tell them."""
    rows = [row.split() for row in text.decode().splitlines() if not row.startswith("path")]
    return [f"{position}: {x}, {y}, width {width}" for position, x, y, width in rows]


def test_examples(tally):
    for name, lanes in ACCEPTED.items():
        file = EXAMPLES / f"{name}.sheet"
        listed, drawn = run(SCRIPT, file), run(SCRIPT, "--svg", file)
        tally.answer(f"{name} listed", listed, 0, listing(file.read_bytes()).encode())
        tally.answer(f"{name} drawn", drawn, 0, drawn.stdout)
        tally.equal(f"{name}: dots of entries", hints_in(drawn.stdout), hints_of(listed.stdout))
        tally.equal(f"{name}: lanes", len(shapes_in(drawn.stdout, "lanes", "path")), lanes)
        tally.answer(f"{name} drawn twice", run(SCRIPT, "--svg", sheet=file.read_bytes()), 0, drawn.stdout)


def test_document(tally):
    tally.equal("document 01's sheet", (EXAMPLES / "document.sheet").read_bytes(), SHEET)
    tally.answer("document 01's listing", run(SCRIPT, EXAMPLES / "document.sheet"), 0, DOCUMENT)
    for name in PICTURES:
        drawn = run(SCRIPT, "--svg", EXAMPLES / f"{name}.sheet").stdout
        tally.holds(f"the picture docs/{name}.svg", (ROOT / "docs" / f"{name}.svg").read_bytes() == drawn)


def test_refusals(tally):
    for refusal, data in two_of_each():
        said = MEANINGS.get(refusal, "; look "), f"(refusal {refusal})."
        tally.answer(f"refusal {refusal}", run(SCRIPT, sheet=data), 1, b"refused %d\n" % refusal, "the sheet was refused: ", *said)
        tally.answer(f"refusal {refusal} drawn", run(SCRIPT, "--svg", sheet=data), 1, b"", *said)
    refused = run(SCRIPT, EXAMPLES / "refused.sheet")
    tally.answer("the refused example", refused, 1, b"refused 2\n", MEANINGS[2], "(refusal 2).")
    for refusal, data in [(15, OLD_SHEET), *BY_HAND]:
        tally.answer("a sheet without widths", run(SCRIPT, sheet=data), 1, b"refused %d\n" % refusal, "has to be made anew")


def test_names(tally, room):
    for name in ["plain", "with a space", "-dash", "*", "quote'\"", "new\nline"]:
        (room / name).write_bytes(SHEET)
        tally.answer(f"a file named {name!r}", run(SCRIPT, "--", name, folder=room), 0, DOCUMENT)
    tally.answer("standard input", run(SCRIPT, sheet=SHEET), 0, DOCUMENT)
    tally.answer("a dash", run(SCRIPT, "-", sheet=SHEET), 0, DOCUMENT)
    link = room / "link to list"
    link.symlink_to(SCRIPT)
    tally.answer("a link to the script", run(link, "plain", folder=room), 0, DOCUMENT)


def test_mistakes(tally, room):
    tally.answer("no file", run(SCRIPT, room / "nothing"), 2, b"", "there is no file", "nothing")
    tally.answer("a folder", run(SCRIPT, room), 2, b"", "is a folder")
    tally.answer("an empty name", run(SCRIPT, ""), 2, b"", "there is no file")
    tally.answer("two files", run(SCRIPT, "plain", "plain", folder=room), 2, b"", "one sheet")
    tally.answer("an option that is none", run(SCRIPT, "-dash", folder=room), 2, b"", "no option '-dash'", "--help")
    if os.geteuid() != 0:
        (room / "closed").write_bytes(SHEET)
        (room / "closed").chmod(0)
        tally.answer("a file that may not be read", run(SCRIPT, room / "closed"), 2, b"", "may not be read")
    told = run(SCRIPT, "--help")
    tally.answer("--help", told, 0, told.stdout)
    tally.holds("--help tells", all(word in told.stdout for word in [b"./list FILE", b"--svg", b"Exit status"]))


# Where a listing is not taken whole

def close_output():
    os.close(1)


def ignore_pipes():
    signal.signal(signal.SIGPIPE, signal.SIG_IGN)


def limit_files():
    """A longer file is refused, as by a full disk, and no signal ends the writer."""
    signal.signal(signal.SIGXFSZ, signal.SIG_IGN)
    resource.setrlimit(resource.RLIMIT_FSIZE, (FRONT, FRONT))


def end_of(words, prepare=None, output=subprocess.DEVNULL, data=LONG):
    """Status and standard error of a run whose standard output is prepared so."""
    ended = subprocess.run(words, input=data, stdout=output, stderr=subprocess.PIPE, preexec_fn=prepare, restore_signals=False)
    return ended.returncode, ended.stderr.decode()


def closed_pipe():
    """A pipe that nobody reads."""
    read, write = os.pipe()
    os.close(read)
    return os.fdopen(write, "wb")


@contextmanager
def untaken(room):
    """Each way in which standard output does not take all: its name, what prepares the run, and the output."""
    with open("/dev/full", "wb") as full, open(room / "short", "wb") as short, closed_pipe() as pipe:
        yield [("a full disk", None, full), ("a disk that fills up", limit_files, short),
               ("a closed pipe", ignore_pipes, pipe), ("no standard output", close_output, None)]


def test_not_taken(tally, room):
    """The program says so on standard error, and the script ends by a status that is not 0."""
    program = program_command("listing")
    said = "listing: standard output did not take the whole listing\n"
    front = listing(LONG).encode()[:FRONT]
    tally.equal("the program, taken whole", end_of(program), (0, ""))
    with untaken(room) as ways:
        for name, prepare, output in ways:
            tally.equal(f"the program, {name}", end_of(program, prepare, output), (0, said))
            tally.equal(f"a refused sheet, {name}", end_of(program, prepare, output, b""), (0, said))
    tally.equal("what was taken", (room / "short").read_bytes(), front)
    with untaken(room) as ways:
        for name, prepare, output in ways:
            status, complaint = end_of([str(SCRIPT)], prepare, output)
            words = "could not be passed on whole" if output else "standard output is closed"
            tally.equal(f"the script, {name}", (status, words in complaint), (2, True))
    tally.equal("what was passed on", (room / "short").read_bytes(), front)


def test_reader_goes_away(tally, room):
    """Only the first line of a long listing is read, or none."""
    (room / "long").write_bytes(LONG)
    words = [str(SCRIPT), str(room / "long")]
    with subprocess.Popen(words, stdout=subprocess.PIPE, stderr=subprocess.PIPE) as running:
        first = running.stdout.readline()
        running.stdout.close()
        complaint = running.stderr.read()
    tally.equal("a reader that goes away", (first, running.returncode), (b"paths 1\n", 128 + signal.SIGPIPE))
    tally.equal("nothing is said of it", complaint, b"")
    with closed_pipe() as pipe:
        early = subprocess.run(words, stdout=pipe, stderr=subprocess.PIPE)
    tally.equal("a reader that was never there", (early.returncode, early.stderr), (128 + signal.SIGPIPE, b""))


# A copy of the script with a kit that only pretends

def test_build(tally, room):
    pretence = Pretence(room)
    ended, calls = pretence.run()
    tally.answer("the program is built", ended, 0, b"paths 0\n", "building", "a few minutes", "proofs")
    tally.equal("by rt", calls, ["rt run", pretence.program_call()])
    ended, calls = pretence.run()
    tally.answer("the program is there", ended, 0, b"paths 0\n")
    tally.equal("and is not built again", calls, [pretence.program_call()])
    for changed in [pretence.crate, pretence.root / "crates.txt"]:
        os.utime(str(pretence.program), (1, 1))
        os.utime(str(changed))
        tally.equal("rt is asked after a change", pretence.run()[1], ["rt run", pretence.program_call()])
        tally.equal("and finding it unchanged is not asked again", pretence.run()[1], [pretence.program_call()])
    pretence.program.unlink()
    tally.answer("a lost program is built again", pretence.run()[0], 0, b"paths 0\n", "building")
    tally.holds("and stays", pretence.program.is_file())
    pretence.rt("echo rt: some proof failed; exit 1")
    pretence.program.unlink()
    tally.answer("a build that fails", pretence.run()[0], 2, b"", "some proof failed", "could not be built", "rt selftest")
    pretence.rt("echo program >out/listing; exit 1")
    tally.answer("a run that fails", pretence.run()[0], 2, b"", "could not be built")
    tally.holds("leaves no program", not pretence.program.exists())


def test_kit(tally, room):
    pretence = Pretence(room)
    tally.answer("no rt", pretence.run(PATH=str(pretence.tools))[0], 2, b"", "Rattle kit", "'rt' is not on PATH")
    pretence.run()
    pretence.prints('[ -z "${QEMU_STRACE+set}" ] && echo paths 0')
    tally.answer("the emulator's variables are unset", pretence.run(QEMU_STRACE="1")[0], 0, b"paths 0\n")
    pretence.place(pretence.toolchain / "bin" / "qemu-x86_64", '"$@"')
    _, calls = pretence.run()
    through = f"qemu-x86_64 {pretence.toolchain}/lib/{pretence.program_call()}"
    tally.equal("the emulator is used", calls, [through, pretence.program_call()])
    ended, calls = pretence.run(PATH=str(pretence.tools), RATTLE_HOME=str(pretence.kit))
    tally.answer("the kit's folder alone is not enough", ended, 2, b"", "not on PATH")
    (pretence.tools / "rt").symlink_to(pretence.kit / "bin" / "rt")
    tally.answer("a link to rt", pretence.run(PATH=str(pretence.tools))[0], 0, b"paths 0\n")
    pretence.loader.unlink()
    tally.answer("a kit for another machine", pretence.run()[0], 2, b"", "nothing for this machine")


def test_no_python(tally, room):
    """Nothing is installed, though it could be: the script runs as root, and installers are at hand."""
    pretence = Pretence(room)
    pretence.place(pretence.tools / "id", "echo 0")
    for installer in INSTALLERS:
        pretence.place(pretence.tools / installer, "true")
    ended, calls = pretence.run("--svg")
    tally.answer("no python3", ended, 2, b"", "needs python3", "not on PATH", "apt-get install python3")
    tally.equal("nothing is called", calls, [])
    tally.answer("listing needs none", pretence.run()[0], 0, b"paths 0\n", "building")


def test_program(tally, room):
    pretence = Pretence(room)
    pretence.run()
    for name, body, status, output, said in [
        ("fails", "echo paths 1; exit 3", 2, b"paths 1\n", "status 3"),
        ("is killed", "echo paths 1; kill -9 $$", 2, b"paths 1\n", "status 137"),
        ("prints nothing", "true", 2, b"", "printed nothing"),
        ("complains", "echo paths 0; echo a complaint >&2", 2, b"paths 0\n", "a complaint\nlist: the program failed"),
        ("prints something else", "echo hello", 2, b"hello\n", "no listing"),
        ("refuses by a new number", "echo refused 99", 1, b"refused 99\n", "(refusal 99)."),
    ]:
        pretence.prints(body)
        tally.answer(f"a program that {name}", pretence.run()[0], status, output, said)


def main():
    tally = Answers()
    check_lanes(tally)
    check_curves(tally)
    run(SCRIPT, EXAMPLES / "empty.sheet")       # builds the program
    for test in [test_examples, test_document, test_refusals]:
        test(tally)
    for test in [test_names, test_mistakes, test_not_taken, test_reader_goes_away, test_build, test_kit, test_no_python, test_program]:
        with tempfile.TemporaryDirectory() as room:
            test(tally, Path(room))
    return tally.end()


if __name__ == "__main__":
    sys.exit(main())
