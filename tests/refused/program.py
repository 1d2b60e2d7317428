"""The program, run with requests for memory refused, under valgrind too."""

import os
import shutil
import signal
import subprocess
from dataclasses import dataclass
from pathlib import Path

FOLDER = Path(__file__).resolve().parent
SECONDS = 120
WELL, MEMORY_STATUS = 0, 5
BAD_MEMORY = 99
"""The exit status of valgrind where it finds anything amiss."""

LEAKS = "definite,indirect,possible"
VALGRIND = [
    shutil.which("valgrind") or "valgrind",
    "-q",
    f"--error-exitcode={BAD_MEMORY}",
    "--leak-check=no",
    f"--show-leak-kinds={LEAKS}",
    f"--errors-for-leak-kinds={LEAKS}",
    # The refusing allocator is called by the program, and valgrind's by that one.
    "--soname-synonyms=somalloc=nouserintercepts",
]


@dataclass(frozen=True)
class Refusal:
    """Which requests are refused, counted from 1: so many from the first on, or all from it on."""

    first: int
    is_lasting: bool = False
    count: int = 1

    def settings(self) -> dict[str, str]:
        return {"REFUSE_FIRST": str(self.first)} | ({} if self.is_lasting else {"REFUSE_LAST": str(self.first + self.count - 1)})

    def __str__(self) -> str:
        more = "all later ones" if self.is_lasting else f"{self.count - 1} more"
        return f"request {self.first}{f' and {more}' if self.is_lasting or self.count > 1 else ''} refused"


@dataclass(frozen=True)
class Run:
    """What a run gave."""

    status: int
    written: bytes
    told: bytes
    requests: int
    refused: int


def compiler() -> str | None:
    """A C compiler, if there is one."""
    return next((found for name in ("cc", "gcc", "clang") if (found := shutil.which(name))), None)


def compiled(name: str, to: Path, flags: tuple[str, ...] = ()) -> Path | None:
    """The shared object of a C file of this folder, made in a folder, or None where the compiler refuses it."""
    made = to / f"{name}.so"
    words = [compiler() or "cc", "-std=c11", "-O2", "-Wall", "-Wextra", "-shared", "-fPIC", *flags]
    ran = subprocess.run([*words, "-o", str(made), str(FOLDER / f"{name}.c")], capture_output=True)
    return made if ran.returncode == 0 else None


class Streams:
    """Files in memory for the streams of one run after another, and a pipe by which the allocator reports its counts."""

    def __init__(self) -> None:
        self.given, self.written, self.told = (os.memfd_create(name) for name in ("given", "written", "told"))
        self.reports, self.report = os.pipe()
        os.set_blocking(self.reports, False)
        os.set_inheritable(self.report, True)

    def run(self, words: list[str], script: bytes, environment: dict[str, str]) -> int:
        """Runs a command on a script, and gives its exit status, or the number of the signal that ended it, negated."""
        for file in (self.given, self.written, self.told):
            os.ftruncate(file, 0)
            os.lseek(file, 0, os.SEEK_SET)
        os.pwrite(self.given, script, 0)
        streams = [(os.POSIX_SPAWN_DUP2, file, to) for to, file in enumerate((self.given, self.written, self.told))]
        process = os.posix_spawn(words[0], words, environment, file_actions=streams)
        try:
            signal.alarm(SECONDS)
            _, ended = os.waitpid(process, 0)
            signal.alarm(0)
        except BaseException:
            os.kill(process, signal.SIGKILL)
            os.waitpid(process, 0)
            raise
        return os.waitstatus_to_exitcode(ended)

    def contents(self, file: int) -> bytes:
        return os.pread(file, os.fstat(file).st_size, 0)

    def counts(self) -> tuple[int, int]:
        """How many requests the run took, and how many were refused; none where it died before its report."""
        try:
            requests, refused = os.read(self.reports, 100).split()
        except BlockingIOError:
            return 0, 0
        return int(requests), int(refused)


def late(number: int, frame: object) -> None:
    raise TimeoutError(f"not ended after {SECONDS} seconds")


class Program:
    """The program to try, with the allocator that refuses, and with what looks for leaks under valgrind."""

    def __init__(self, path: str, allocator: Path, leaks: Path | None = None) -> None:
        self.path = os.path.realpath(path)
        self.allocator = allocator
        self.leaks = leaks
        self.streams = Streams()
        self.environment = {name: value for name, value in os.environ.items() if not name.startswith(("REFUSE_", "LD_"))} | {
            "LD_PRELOAD": str(allocator),
            "REFUSE_PROGRAM": self.path,
            "REFUSE_REPORT": str(self.streams.report),
        }
        signal.signal(signal.SIGALRM, late)

    def run(self, script: bytes, words: tuple[str, ...], refusal: Refusal | None = None) -> Run:
        """Runs a script."""
        given = self.environment | (refusal.settings() if refusal else {})
        status = self.streams.run([self.path, *words], script, given)
        streams = self.streams
        return Run(status, streams.contents(streams.written), streams.contents(streams.told), *streams.counts())

    def watched(self, script: bytes, words: tuple[str, ...], refusal: Refusal, wanted: Run) -> str:
        """Runs a script under valgrind, and gives what is amiss: what that finds, or another ending than is wanted. Leaks are
        looked for at the end of the input, since the program gives its workbook back by its end and not before."""
        given = self.environment | refusal.settings()
        given["LD_PRELOAD"] += f":{self.leaks}"
        status = self.streams.run([*VALGRIND, self.path, *words], script, given)
        self.streams.counts()
        if (status, self.streams.contents(self.streams.written)) == (wanted.status, wanted.written):
            return ""
        return f"status {status}\n{self.streams.contents(self.streams.told).decode(errors='replace')}"
