"""The lines of a script: which are commands, and which are data."""

from __future__ import annotations

import re
from collections.abc import Iterator

MOST_LINES = 1_000_000
CSV_LINE = re.compile(r" *(?:force +)?csv +[^ ]+ +([0-9]{1,7}) *")


def data_lines(line: str) -> int:
    """How many data lines follow a line.

    >>> data_lines("csv A1 12"), data_lines("force csv A1 3"), data_lines("show A1")
    (12, 3, 0)
    """
    found = CSV_LINE.fullmatch(line)
    count = int(found[1]) if found else 0
    return count if count <= MOST_LINES else 0


def commands_of(script: str) -> Iterator[tuple[int, str, bytes]]:
    """Each line of a script that is a command, with its number and its data lines.

    >>> list(commands_of("# data\\ncsv A1 1\\n1,2\\nshow A1"))
    [(2, 'csv A1 1', b'1,2\\n'), (4, 'show A1', b'')]
    """
    lines = script.removesuffix("\n").split("\n")
    at = 0
    while at < len(lines):
        line, number, first = lines[at].removesuffix("\r"), at + 1, at + 1
        at = first + data_lines(line)
        if at > len(lines):
            raise ValueError(f"line {number}: {at - first} data lines are announced, {len(lines) - first} are left")
        if line.strip(" ") and not line.startswith("#"):
            yield number, line, "".join(text + "\n" for text in lines[first:at]).encode()
