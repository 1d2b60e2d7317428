"""The records in the data lines of a csv."""

import csv
import io
import re
from dataclasses import dataclass
from functools import lru_cache
from itertools import accumulate

from .script import Command

LONGEST_FIELD = 1 << 30
QUOTED = re.compile(r'"(?:[^"]|"")*("?)')
PLAIN = re.compile(r"[^,\r\n]*")


@dataclass(frozen=True)
class Record:
    """The fields of a record, and the line in which it begins."""

    line: int
    fields: list[str]


def text_of(command: Command) -> str:
    return "\n".join(line.decode(errors="replace") for line in command.data).removeprefix("\ufeff")


@lru_cache(maxsize=1)
def records(command: Command) -> list[Record]:
    """The records of the data lines; an empty line is none. Those of the last command are kept, since they are looked at twice."""
    text = text_of(command)
    if '"' not in text and "\r" not in text:
        return [Record(at, line.split(",")) for at, line in enumerate(text.split("\n"), command.line + 1) if line]
    csv.field_size_limit(LONGEST_FIELD)
    parts = list(io.StringIO(text, newline=""))
    ends = [0, *accumulate(part.count("\n") for part in parts)]
    reader = csv.reader(parts)
    found: list[Record] = []
    begin = 0
    try:
        for record in reader:
            if record:
                found.append(Record(command.line + 1 + ends[begin], record))
            begin = reader.line_num
    except csv.Error:
        pass
    return found


def opened(command: Command) -> tuple[int, int] | None:
    """The line and the column of a quote that no other one closes."""
    text, place = text_of(command), 0
    if '"' not in text:
        return None
    while place < len(text):
        found = QUOTED.match(text, place)
        if found is not None and not found[1]:
            before = text[:place]
            return command.line + 1 + before.count("\n"), place - before.rfind("\n")
        plain = PLAIN.match(text, place if found is None else found.end())
        assert plain is not None
        place = plain.end() + 1
    return None
