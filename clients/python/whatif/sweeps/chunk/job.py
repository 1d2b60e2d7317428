"""What all chunks of a sweep have in common: the model, the inputs and the questions."""

from __future__ import annotations

import json
import re
from dataclasses import dataclass
from fractions import Fraction
from typing import Any

LARGEST = 2**127 - 1
LONGEST = 200
SIMPLE = r"[-+]?[0-9]{1,18}(?:\.[0-9]{1,18})?"
"""A number that fits and is spelled as the program reads it."""
NUMBER = re.compile(r"[-+]?(?:[0-9]+\.?[0-9]*|\.[0-9]+)(?:[eE][-+]?[0-9]{1,3})?|[-+]?[0-9]+/0*[1-9][0-9]*")


@dataclass(frozen=True)
class Column:
    """An input: the cell, what a field of it may be (N number, T text, L truth value, - a number, a truth value or nothing), and the
    words before its content."""

    address: str
    kind: str
    put: str

    @property
    def is_replacement(self) -> bool:
        return self.put.startswith("scenario ")

    def command(self, field: str) -> str:
        """The command that puts a field into the cell.

        >>> Column("B1", "N", "force set B1 ").command("1e-7"), Column("B2", "T", "force set B2 ").command("=[.B1]")
        ('force set B1 1/10000000', "force set B2 '=[.B1]")
        """
        if "\r" in field or "\n" in field:
            raise ValueError("a line break inside a field")
        if self.kind == "T":
            return self.put + self.text(field)
        if field == "" and self.kind == "-" and not self.is_replacement:
            return f"force clear {self.address}"
        if self.kind != "N" and field.upper() in ("TRUE", "FALSE"):
            return self.put + field.upper()
        if self.kind == "L":
            raise ValueError(f"{shortened(field)} is neither TRUE nor FALSE, and the model has a truth value there")
        if not NUMBER.fullmatch(field):
            raise ValueError(self.no_number(field))
        return self.put + spelled(field)

    def text(self, field: str) -> str:
        if not self.is_replacement:
            return "'" + field
        if field in ("", "TRUE", "FALSE") or NUMBER.fullmatch(field):
            raise ValueError(f"the text {shortened(field)} can't be put where the scenario has a replacement")
        return field

    def no_number(self, field: str) -> str:
        if field == "":
            return "the field is empty"
        if self.kind == "N":
            return f"{shortened(field)} is no number, and the model has one there"
        return f"{shortened(field)} is a text, and the model's cell is empty: --text {self.address} takes texts"


@dataclass(frozen=True)
class Show:
    """A question after each set: a rectangle of so many rows and columns."""

    rect: str
    rows: int
    columns: int


@dataclass(frozen=True)
class Job:
    """What all chunks of a sweep have in common."""

    model: str
    start: str
    answered: int
    answer_sha256: str
    program_sha256: str
    labels: int
    columns: tuple[Column, ...]
    shows: tuple[Show, ...]

    def to_bytes(self) -> bytes:
        fields = {**vars(self), "columns": [vars(it) for it in self.columns], "shows": [vars(it) for it in self.shows]}
        return json.dumps(fields, sort_keys=True).encode()

    @staticmethod
    def of_bytes(written: bytes) -> Job:
        fields: dict[str, Any] = json.loads(written)
        fields["columns"] = tuple(Column(**it) for it in fields["columns"])
        fields["shows"] = tuple(Show(**it) for it in fields["shows"])
        return Job(**fields)

    def before(self) -> bytes:
        """The script before the first set."""
        line_end = "" if self.model.endswith("\n") or not self.model else "\n"
        return f"{self.model}{line_end}{self.start}".encode()

    def questions(self) -> str:
        return "".join(f"show {it.rect}\n" for it in self.shows)


def shortened(field: str) -> str:
    return repr(field if len(field) <= 40 else field[:40] + "..")


def spelled(number: str) -> str:
    """A number as the program reads it, exactly.

    >>> spelled("0.10"), spelled("1E+3"), spelled(".5"), spelled("2.5e-4")
    ('0.10', '1000', '1/2', '1/4000')
    """
    if re.fullmatch(SIMPLE, number):
        return number
    if len(number) <= LONGEST:
        exact = Fraction(number)
        if max(abs(exact.numerator), exact.denominator) <= LARGEST:
            return str(exact)
    raise ValueError(f"{shortened(number)} doesn't fit: both sides of a fraction are at most 2^127 - 1")
