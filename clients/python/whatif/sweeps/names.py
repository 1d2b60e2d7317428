"""Whether a name stands twice among the sets."""

from __future__ import annotations

from array import array
from collections import Counter
from collections.abc import Iterable

from .chunk.lines import name_of

BUCKETS = 256
TOLD = 5


class Names:
    """The names so far. Each takes 8 bytes, a hash, so that those of many sets fit into memory."""

    def __init__(self) -> None:
        self.buckets = [array("q") for _ in range(BUCKETS)]

    def add(self, line: bytes) -> None:
        found = hash(first_field(line))
        self.buckets[found % BUCKETS].append(found)

    def suspects(self) -> set[int]:
        """The hashes that stand twice."""
        return {it for bucket in self.buckets for it, count in Counter(bucket).items() if count > 1}


def first_field(line: bytes) -> bytes:
    """What the first field of a line says."""
    return name_of(line.rstrip(b"\r\n")).encode() if line.startswith(b'"') else line.rstrip(b"\r\n").partition(b",")[0]


def twice(lines: Iterable[bytes], suspects: set[int]) -> list[str]:
    """Which names stand twice, the first few; lines are counted from the head of the sets.

    >>> names = Names()
    >>> for line in (b"a,1", b"b,2", b"a,3"): names.add(line)
    >>> twice([b"name,B1", b"a,1", b"b,2", b"a,3"], names.suspects())
    ["'a' on lines 2 and 4"]
    """
    first: dict[bytes, int] = {}
    told: list[str] = []
    for number, line in enumerate(lines, 1):
        field = first_field(line)
        if number == 1 or not line.strip(b"\r\n") or hash(field) not in suspects:
            continue
        if first.setdefault(field, number) < number:
            told.append(f"{name_of(field)!r} on lines {first[field]} and {number}")
        if len(told) > TOLD:
            return [*told[:TOLD], ".."]
    return told
