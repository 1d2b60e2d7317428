"""What the tests of sweeps share: models, sets, programs that die, and the tool."""

import io
import os
import signal
import subprocess
import sys
from collections.abc import Iterator
from contextlib import contextmanager
from pathlib import Path
from unittest import mock

from tests import ROOT
from tests.support.program import PROGRAM
from tests.support.scratch import ScratchTest, made_program
from tests.support.solar import left
from whatif.sweeps.command import main
from whatif.values import shown

TOOL = ROOT / "tools" / "whatif-sweep"
SWEEP = ROOT / "examples" / "sweep"
SOLAR = SWEEP / "model.whatif"
SOLAR_CELLS = ("B1", "B3", "B4", "B6")

TARIFF = """\
set B1 250
set B2 0.32
set B3 'flat
set B4 =[.B1]*[.B2]
set B5 =[.B3]&" "&[.B1]
set B6 =IF([.C1];1;2)
set B7 =100/[.B1]
set C1 TRUE
scenario winter B1 400
"""

Ran = subprocess.CompletedProcess


def solar_sets(count: int) -> list[str]:
    """So many lines of sets for the solar roof, below their head."""
    made = subprocess.run([str(SWEEP / "sets"), str(count)], capture_output=True, text=True, check=True).stdout
    return [f"name,{','.join(SOLAR_CELLS)}", *made.splitlines()]


def solar_result(line: str) -> str:
    """The name in a line of sets, and what is left."""
    name, *values = line.split(",")
    return f"{name},{shown(left(*values))}"


def text_of(lines: list[str]) -> str:
    return "".join(line + "\n" for line in lines)


@contextmanager
def streams(given: bytes) -> "Iterator[tuple[io.BytesIO, io.BytesIO]]":
    """Standard input with these bytes, and what is written to standard output and to standard error."""
    out, said = io.BytesIO(), io.BytesIO()
    texts = [io.TextIOWrapper(it, encoding="utf-8", write_through=True) for it in (io.BytesIO(given), out, said)]
    with mock.patch.multiple(sys, stdin=texts[0], stdout=texts[1], stderr=texts[2]):
        yield out, said
    for text in texts:
        text.detach()


@contextmanager
def in_folder(path: Path) -> "Iterator[None]":
    """This folder as the current one, and signals as they were."""
    before, handler = os.getcwd(), signal.getsignal(signal.SIGTERM)
    os.chdir(path)
    try:
        yield
    finally:
        os.chdir(before)
        signal.signal(signal.SIGTERM, handler)


class SweepTest(ScratchTest):
    """A test with a folder of its own, in which the tool runs."""

    def setUp(self) -> None:
        super().setUp()
        self.model = self.folder / "model.whatif"
        self.model.write_text(TARIFF)

    def words(self, *words: object) -> list[str]:
        return [sys.executable, str(TOOL), *map(str, words)]

    def environment(self, program: object = PROGRAM, **more: str) -> dict[str, str]:
        return {**os.environ, "WHATIF": str(program), **more}

    def run_tool(self, *words: object, sets: str = "", program: object = PROGRAM) -> "Ran[str]":
        """Runs the tool with these words, in this process."""
        with streams(sets.encode()) as (out, said), in_folder(self.folder), mock.patch.dict(os.environ, WHATIF=str(program)):
            try:
                status = main([str(it) for it in words])
            except SystemExit as ended:
                status = ended.code if isinstance(ended.code, int) else 1
        return Ran([str(it) for it in words], status, out.getvalue().decode(errors="replace"), said.getvalue().decode(errors="replace"))

    def run_apart(self, *words: object, program: object = PROGRAM) -> "Ran[str]":
        """Runs the tool with these words, in a process of its own."""
        return subprocess.run(self.words(*words), stdin=subprocess.DEVNULL, capture_output=True, text=True, cwd=self.folder,
                              env=self.environment(program), timeout=180)

    def swept(self, sets: str, *words: object, model: object = None, out: str = "B4", program: object = PROGRAM) -> "Ran[str]":
        return self.run_tool(model or self.model, "--out", out, "--jobs", "1", *words, sets=sets, program=program)

    def failures(self, path: str = "whatif-sweep.failures.csv") -> list[str]:
        return (self.folder / path).read_text().splitlines()[1:]

    def script(self, name: str, text: str) -> Path:
        """A program to run in place of whatif."""
        return made_program(self.folder / name, text)

    def slow(self, seconds: float) -> Path:
        """The program, but each run takes so long at least, wherever it runs, until `quicken`."""
        told = self.folder / "seconds"
        told.write_text(str(seconds))
        return self.script("slow", f"#!/bin/sh\n[ -e '{told}' ] && sleep $(cat '{told}')\nexec {PROGRAM} \"$@\"\n")

    def quicken(self) -> None:
        (self.folder / "seconds").unlink()

    def dying(self, at: str, times: int = 1000, by: int = 9) -> Path:
        """The program, but it is killed at a command by a signal, so many times; what comes before is answered."""
        return self.script(
            "dying",
            f"""#!{sys.executable}
import os, pathlib, stat, subprocess, sys
if stat.S_ISFIFO(os.fstat(0).st_mode):
    os.execv({PROGRAM!r}, [{PROGRAM!r}])
script = sys.stdin.buffer.read()
before, found, _ = script.partition({at.encode()!r} + b"\\n")
count = pathlib.Path({str(self.folder / "deaths")!r})
deaths = len(count.read_bytes()) if count.exists() else 0
if not found or deaths >= {times}:
    sys.exit(subprocess.run([{PROGRAM!r}], input=script).returncode)
with count.open("ab") as file:
    file.write(b".")
subprocess.run([{PROGRAM!r}], input=before)
os.kill(os.getpid(), {by})
""",
        )

    def done_files(self, folder: str = "work") -> dict[str, int]:
        """The chunks that have a file, and when it came. A file that is still being written has a name with a point before it."""
        done = (self.folder / folder / "done").iterdir()
        return {it.name: it.stat().st_mtime_ns for it in done if not it.name.startswith(".")}
