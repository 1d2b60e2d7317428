"""From lines of sets to commands."""

from __future__ import annotations

import csv
import io
import re
from collections.abc import Iterable, Iterator
from dataclasses import dataclass
from typing import Optional

from .job import SIMPLE, Job


@dataclass
class Set:
    """A line of the sets: its number, its labels as fields of CSV, and the commands that put it in and ask."""

    line: int
    labels: bytes
    script: bytes


@dataclass
class Failure:
    """A set without a result, and why."""

    line: int
    name: str
    reason: str


@dataclass(frozen=True)
class Reader:
    """Reads lines of sets. A line of plain labels and plain numbers is taken by one regular expression, any other field by field."""

    job: Job
    plain_line: Optional[re.Pattern[bytes]]
    template: bytes

    @staticmethod
    def of(job: Job) -> Reader:
        template = "".join(it.put.replace("%", "%%") + "%s\n" for it in job.columns) + job.questions().replace("%", "%%")
        if any(it.kind != "N" for it in job.columns):
            return Reader(job, None, template.encode())
        labels = ",".join([r'[^",\r\x80-\xff]*'] * job.labels)
        numbers = [f"({SIMPLE})"] * len(job.columns)
        return Reader(job, re.compile(",".join([f"({labels})"] * bool(job.labels) + numbers).encode("latin-1")), template.encode())

    def read(self, number: int, line: bytes) -> Set | Failure:
        found = self.plain_line.fullmatch(line) if self.plain_line else None
        if found:
            fields = found.groups()
            return Set(number, fields[0] if self.job.labels else b"", self.template % fields[bool(self.job.labels) :])
        try:
            return self.read_fields(number, line)
        except ValueError as error:
            return Failure(number, name_of(line) if self.job.labels else "", str(error))

    def read_fields(self, number: int, line: bytes) -> Set:
        fields = fields_of(line)
        wanted = self.job.labels + len(self.job.columns)
        if len(fields) != wanted:
            raise ValueError(f"{len(fields)} fields, and the head has {wanted}")
        commands = []
        for column, field in zip(self.job.columns, fields[self.job.labels :]):
            try:
                commands.append(column.command(field) + "\n")
            except ValueError as error:
                raise ValueError(f"{column.address}: {error}") from None
        return Set(number, line_of(fields[: self.job.labels]), ("".join(commands) + self.job.questions()).encode())


def fields_of(line: bytes) -> list[str]:
    """The fields of a line of CSV.

    >>> fields_of(b'"a ""b"", c",5')
    ['a "b", c', '5']
    """
    try:
        text = line.decode()
    except UnicodeDecodeError:
        raise ValueError("no UTF-8") from None
    if "\r" in text:
        raise ValueError("a line break inside a field")
    try:
        return next(csv.reader([text], strict=True)) or [""]
    except csv.Error as error:
        raise ValueError(f"no CSV: {error}") from None


def line_of(fields: Iterable[str]) -> bytes:
    """Fields as a line of CSV, without its end.

    >>> line_of(["bolt, M6", "5"])
    b'"bolt, M6",5'
    """
    out = io.StringIO(newline="")
    csv.writer(out, lineterminator="").writerow(fields)
    return out.getvalue().encode()


def name_of(line: bytes) -> str:
    """The first field of a line, whatever is wrong with the line.

    >>> name_of(b'"bolt, M6",5'), name_of(b'bolt,5'), name_of(b'"bolt')
    ('bolt, M6', 'bolt', '"bolt')
    """
    try:
        return fields_of(line)[0]
    except ValueError:
        return line.partition(b",")[0].decode(errors="replace")


def lines_of(data: bytes, first: int) -> Iterator[tuple[int, bytes]]:
    """The lines that aren't empty, with their numbers, without their ends."""
    for number, line in enumerate(data.split(b"\n"), first):
        line = line[:-1] if line.endswith(b"\r") else line
        if line:
            yield number, line
