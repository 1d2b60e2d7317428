"""A copy of the start scripts beside crates that stubs of the toolchain prove and build. Each program that they make ends with status 7."""

import os
import shutil
import subprocess
import sys
import time
from collections.abc import Callable
from dataclasses import dataclass
from pathlib import Path

from tests import ROOT
from tests.support.scratch import ScratchTest, made_script

FOLDER = ROOT / "tests/start"
CRATES = "# the crates\nlow:\n# not of the program\nother: low\nhigh status=1: low\nwhatif: high low\n"
PROGRAM_STATUS = 7
FAILED = 1
SECONDS = 30
PROVED, QUICK, FASTER = "proved", "-O0 of main", "-O1 of main"
SCRIPTS = ("whatif", "prove", "test", "start/programs", "start/build-unproved")
RUNNER = """echo "$*" > "$STUB_ROOT/words"
echo '2 skipped: 2 of a part; install it'
echo '10 passed, 0 failed, 2 skipped'"""
STUBS = (("rt", "bin"), ("rattle", "bin"), ("rattle-link", "bin"), ("clang", "toolchain/bin"))


def wait_for(is_so: Callable[[], bool]) -> None:
    until = time.monotonic() + SECONDS
    while not is_so():
        if time.monotonic() > until:
            raise AssertionError("nothing came within so many seconds")
        time.sleep(0.05)


@dataclass(frozen=True)
class Answer:
    status: int
    out: str
    messages: str


@dataclass(frozen=True)
class Checkout:
    root: Path

    @property
    def unproved(self) -> Path:
        return self.root / "out" / "unproved"

    @property
    def proved(self) -> Path:
        return self.root / "out" / "proved" / "whatif"

    @property
    def built(self) -> Path:
        return self.root / "crates" / "whatif" / "out" / "whatif"

    @property
    def source(self) -> Path:
        return self.root / "crates" / "whatif" / "src" / "main.rt"

    @property
    def kit(self) -> Path:
        return self.root / "the kit"

    def edit(self, part: str, crate: str = "low") -> None:
        """Makes a file of a crate newer than all that is built."""
        file = self.root / "crates" / crate / part / "file"
        file.touch()
        later = time.time() + 60
        os.utime(file, (later, later))

    def calls(self) -> list[str]:
        """What the toolchain was asked to do, but for its folder, call by call."""
        file = self.root / "calls"
        return [it for it in file.read_text().split() if it != "doc"] if file.exists() else []

    def environment(self, has_rt: bool, **more: str) -> dict[str, str]:
        rt = [f"{self.root}/bin"] if has_rt else []
        path = ":".join([*rt, f"{self.root}/python", "/usr/bin", "/bin"])
        return {"PATH": path, "STUB_ROOT": str(self.root), "STUB_ELF": str(ROOT / "tests/support/stub_elf.py"), "TMPDIR": str(self.root / "tmp"), **more}

    def begin(self, *words: str, has_rt: bool = True, by: str = "whatif", **more: str) -> "subprocess.Popen[str]":
        pipe = subprocess.PIPE
        return subprocess.Popen([str(self.root / by), *words], cwd=self.root / "work", env=self.environment(has_rt, **more),
                                stdin=pipe, stdout=pipe, stderr=pipe, text=True, start_new_session=True)

    def call(self, *words: str, has_rt: bool = True, by: str = "whatif", **more: str) -> Answer:
        return ended(self.begin(*words, has_rt=has_rt, by=by, **more))

    def prove(self, has_rt: bool = True, **more: str) -> Answer:
        return self.call(has_rt=has_rt, by="prove", **more)


def ended(process: "subprocess.Popen[str]") -> Answer:
    out, messages = process.communicate("set A1 1\n", timeout=SECONDS)
    return Answer(process.returncode, out, messages)


def checkout(root: Path) -> Checkout:
    place = Checkout(root)
    for name in ("bin", "python", "work", "start", "tests", "tmp", "crates/other/src", *(f"crates/{crate}/src" for crate in ("whatif", "high"))):
        (root / name).mkdir(parents=True)
    for name in ("src", "specs", "proofs"):
        (root / "crates" / "low" / name).mkdir(parents=True)
    for name in ("bin", "toolchain/bin", "toolchain/lib", "c"):
        (place.kit / name).mkdir(parents=True)
    for name in SCRIPTS:
        shutil.copy(ROOT / name, root / name)
    for name, to in STUBS:
        shutil.copy(FOLDER / name, place.kit / to / name)
    shutil.copy(FOLDER / "make", root / "make")
    for name in ("bin/rtlib.py", "c/libos_c.a", "c/liblibc_c.a"):
        (place.kit / name).touch()
    (root / "bin" / "rt").symlink_to(place.kit / "bin" / "rt")
    (root / "python" / "python3").symlink_to(sys.executable)
    made_script(root / "tests" / "run", RUNNER)
    (root / "crates.txt").write_text(CRATES)
    place.source.write_text("main\n")
    return place


class StartTest(ScratchTest):
    """A test on a checkout of its own, in a folder whose name has a blank and a quote in it."""

    is_written_until_the_end = True

    def setUp(self) -> None:
        super().setUp()
        self.place = checkout(self.folder.resolve() / "it's a checkout")

    def expect(self, what: str, got: object, wanted: object) -> None:
        self.assertEqual(got, wanted, what)

    def expect_program(self, answer: Answer, made: str, words: str = "") -> None:
        self.expect("output", answer.out, f"made: {made}; words: {words}; folder: work\nline: set A1 1\n")
        self.expect("status", answer.status, PROGRAM_STATUS)
        self.expect("says that it is unproved", "not proved yet; " in answer.messages, made != PROVED)
