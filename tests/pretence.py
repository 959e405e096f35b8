"""./list run from a test: the script itself, or a copy of it whose kit only
pretends.
"""
import os
import shutil
import stat
import subprocess
from pathlib import Path

from above import ROOT

SCRIPT = ROOT / "list"
TOOLS = "bash cat dirname env find head mkdir mktemp readlink rm sed tee touch uname".split()


def run(script, *arguments, sheet=b"", folder=ROOT, **variables):
    """Runs the script in a folder, with a sheet on standard input."""
    return subprocess.run([str(script), *map(str, arguments)], input=sheet, capture_output=True,
                          cwd=str(folder), env={**os.environ, **variables})


class Pretence:
    """A repository and a kit in a folder. Each script placed there writes a line to the file 'calls'."""

    def __init__(self, room):
        self.root, self.kit, self.tools = room / "repository", room / "kit", room / "tools"
        (self.root / "crates").mkdir(parents=True)
        self.crate = self.root / "crates" / "code"
        self.crate.touch()
        (self.root / "crates.txt").touch()
        self.program = self.root / "crates" / "listing" / "out" / "listing"
        self.script = Path(shutil.copy(str(SCRIPT), str(self.root)))
        self.toolchain = self.kit / "on" / os.uname().machine / "toolchain"
        self.loader = self.toolchain / "lib" / "ld-linux-x86-64.so.2"
        self.calls = room / "calls"
        self.tools.mkdir()
        for tool in TOOLS:
            (self.tools / tool).symlink_to(shutil.which(tool))
        self.program.parent.mkdir(parents=True)
        self.rt("[ -f out/listing ] || echo program >out/listing")
        self.prints("echo paths 0")

    def place(self, file, body):
        file.parent.mkdir(parents=True, exist_ok=True)
        file.write_text(f'#!/bin/sh\necho "{file.name} $*" >>"{self.calls}"\n{body}\n')
        file.chmod(file.stat().st_mode | stat.S_IXUSR)

    def rt(self, body):
        self.place(self.kit / "bin" / "rt", body)

    def prints(self, body):
        self.place(self.loader, body)

    def run(self, *arguments, **variables):
        """The script's end, and the calls of the scripts placed here."""
        self.calls.write_text("")
        path = f"{self.kit / 'bin'}:{self.tools}"
        ended = run(self.script, *arguments, folder=self.tools, **{"PATH": path, "RATTLE_HOME": "", **variables})
        return ended, self.calls.read_text().splitlines()

    def program_call(self):
        return f"{self.loader.name} --library-path {self.toolchain}/lib {self.program}"
