"""The sets, copied into the folder of a sweep: how many there are, and where they begin."""

from __future__ import annotations

import hashlib
from collections.abc import Iterable
from dataclasses import dataclass
from pathlib import Path
from typing import BinaryIO, Optional

from .head import WrongSweep
from .names import Names, twice


@dataclass(frozen=True)
class Sets:
    """What was found on the way through the sets: how many there are, how many bytes they take with their head, and their SHA-256."""

    count: int
    end: int
    sha256: str


def parted_from_head(sets: BinaryIO) -> bytes:
    """The first line of the sets, as it stands."""
    line = sets.readline()
    if not line.strip():
        raise WrongSweep("the sets are empty: their first line is a head, as in name,B1,B3")
    return line


def copied(head: bytes, sets: Iterable[bytes], to: BinaryIO, names: Optional[Names]) -> Sets:
    """Writes the sets into a file, and notes their names, if there are names."""
    digest = hashlib.sha256(head)
    end, count = to.write(head), 0
    for line in sets:
        if line.strip(b"\r\n"):
            count += 1
            if names:
                names.add(line)
        digest.update(line)
        end += to.write(line)
    to.flush()
    return Sets(count, end, digest.hexdigest())


def copied_once(head: bytes, sets: Iterable[bytes], path: Path, is_named: bool) -> Sets:
    """Writes the sets into a file. If they are named, their names must differ."""
    names = Names() if is_named else None
    with path.open("wb") as file:
        found = copied(head, sets, file, names)
    suspects = names.suspects() if names else set()
    if suspects:
        with path.open("rb") as lines:
            told = twice(lines, suspects)
        if told:
            raise WrongSweep(f"a name stands twice: {', '.join(told)}; --repeated takes such sets")
    return found


def starts_of(lines: Iterable[bytes], size: int) -> list[int]:
    """Where each chunk of so many lines begins; the first line is the head.

    >>> starts_of([b"name,B1\\n", b"a,1\\n", b"b,10\\n", b"c,1\\n"], 2)
    [8, 17]
    """
    starts = []
    at = 0
    for number, line in enumerate(lines, -1):
        if number >= 0 and number % size == 0:
            starts.append(at)
        at += len(line)
    return starts
