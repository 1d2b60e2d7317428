"""The program to test, and runs of it."""

import os
import select
import shutil
import sys
from collections.abc import Sequence
from dataclasses import dataclass
from typing import IO

from whatif_tools.program import call, named, newest

SECONDS = 60


def program() -> str:
    """The program's path: what the environment variable WHATIF names, else the newest of this repository. One that is installed must be named."""
    found = named() or str(newest() or "whatif of this repository")
    path = shutil.which(found)
    if not path:
        sys.exit(f"{found} isn't there: ./whatif builds it, or WHATIF names another\n0 passed, 1 failed")
    return os.path.abspath(path)


PROGRAM = program()
os.environ["WHATIF"] = PROGRAM  # what tests start finds it so


@dataclass(frozen=True)
class Ended:
    """How a run ended: its exit status, and what it wrote to standard output and to standard error."""

    status: int
    written: bytes
    told: bytes


def run(script: bytes, words: Sequence[str] = (), seconds: float = SECONDS, path: str = PROGRAM) -> Ended:
    """Runs a script on the program, called with some words."""
    ran = call(words, script, path, seconds)
    return Ended(ran.returncode, ran.stdout, ran.stderr)


def written(script: bytes, *words: str) -> bytes:
    """What a run writes that must end well."""
    ended = run(script, words)
    if ended.status:
        raise RuntimeError(f"status {ended.status}: {ended.told.decode(errors='replace')}")
    return ended.written


def awaited(stream: IO[bytes], count: int, seconds: float) -> bytes:
    """The next bytes of a pipe that isn't buffered, or fewer where it ends or they don't come."""
    read = b""
    while len(read) < count and select.select([stream], [], [], seconds)[0] and (more := stream.read(count - len(read))):
        read += more
    return read
