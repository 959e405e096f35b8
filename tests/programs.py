"""The repository's programs: built where they are missing, and run.

They are programs for x86-64, linked against the kit's C library: they run
under the kit's loader, and under the kit's emulator as well where the kit has
one. The kit is found by its command rt, as rt itself finds it.
"""
import os
import platform
import shutil
import subprocess
import sys
import time
from collections import namedtuple
from pathlib import Path

from above import ROOT

PAUSE = 0.05            # seconds

Ended = namedtuple("Ended", "status output errors")


def kit_folder():
    """The kit's folder: what RATTLE_HOME says, or two above rt."""
    if os.environ.get("RATTLE_HOME"):
        return Path(os.environ["RATTLE_HOME"])
    rt = shutil.which("rt")
    if rt is None:
        sys.exit("there is no rt on PATH")
    return Path(rt).resolve().parent.parent


def first_folder(*folders):
    """The first one that exists, or the last."""
    for folder in folders:
        if folder.is_dir():
            return folder
    return folders[-1]


def program_command(name, root=ROOT):
    """The words that run crates/NAME/out/NAME of the repository at root."""
    kit = kit_folder()
    tools = first_folder(kit / "on" / platform.machine() / "toolchain",
                         kit / "toolchain")
    library = first_folder(tools / "lib", kit / "toolchain" / "lib")
    emulator = tools / "bin" / "qemu-x86_64"
    words = [emulator] if os.access(emulator, os.X_OK) else []
    words += [library / "ld-linux-x86-64.so.2", "--library-path", library,
              program_file(name, root)]
    return [str(word) for word in words]


def program_file(name, root):
    return Path(root) / "crates" / name / "out" / name


def is_fresh(program, root):
    """It is there, and no source is newer."""
    if not program.exists():
        return False
    built = program.stat().st_mtime
    sources = [Path(root) / "crates.txt", *Path(root, "crates").rglob("*")]
    return all(source.stat().st_mtime <= built for source in sources
               if "out" not in source.relative_to(root).parts)


def build_stale(names, root=ROOT):
    """Has rt prove and link the programs that are missing or out of date.

    rt builds a program in order to run it: here on an empty input.
    """
    for name in names:
        program = program_file(name, root)
        if is_fresh(program, root):
            continue
        print("rt run", name, flush=True)
        built = subprocess.run(["rt", "run"], cwd=Path(root, "crates", name),
                               stdin=subprocess.DEVNULL,
                               stdout=subprocess.DEVNULL, check=False)
        if built.returncode != 0:
            sys.exit(f"rt run failed in crates/{name}")
        program.touch()


def send(running, piece):
    """Writes a piece of input, and waits until it has surely been read."""
    try:
        running.stdin.write(piece)
        running.stdin.flush()
    except BrokenPipeError:
        return  # the program reads no more; its answer is looked at anyway
    time.sleep(PAUSE)


def run_program(name, pieces, root=ROOT):
    """Runs a program to its end; its input comes in these pieces of bytes."""
    settings = {key: value for key, value in os.environ.items()
                if not key.startswith("QEMU_")}
    *early, last = pieces
    with subprocess.Popen(program_command(name, root), env=settings,
                          stdin=subprocess.PIPE, stdout=subprocess.PIPE,
                          stderr=subprocess.PIPE) as running:
        for piece in early:
            send(running, piece)
        output, errors = running.communicate(last)
    return Ended(running.returncode, output.decode("ascii", "replace"),
                 errors.decode("ascii", "replace"))
