"""Addresses and rectangles of the sheet."""

import re
from dataclasses import dataclass
from functools import lru_cache
from typing import NamedTuple

COLUMNS = 16_384
ROWS = 1_048_576
ADDRESS = re.compile(r"([A-Za-z]+)([1-9][0-9]*)")
AREA = re.compile(rf"{ADDRESS.pattern}(?::{ADDRESS.pattern})?")


@lru_cache
def column_number(letters: str) -> int:
    """A is 1, Z is 26, AA is 27."""
    number = 0
    for letter in letters.upper():
        number = number * 26 + ord(letter) - ord("A") + 1
    return number


def column_letters(number: int) -> str:
    letters = ""
    while number > 0:
        number, rest = divmod(number - 1, 26)
        letters = chr(ord("A") + rest) + letters
    return letters


class Address(NamedTuple):
    """A cell's place; rows and columns are counted from 1. Lists of many cells are kept by it, so it is a tuple."""

    row: int
    column: int

    @classmethod
    def parse(cls, text: str) -> "Address | None":
        """Reads `B7`; None for what is no address, or is one outside the sheet."""
        found = ADDRESS.fullmatch(text)
        if found is None or len(found[1]) > 3 or len(found[2]) > 7:
            return None
        address = cls(int(found[2]), column_number(found[1]))
        return address if address.row <= ROWS and address.column <= COLUMNS else None

    def __str__(self) -> str:
        return f"{column_letters(self.column)}{self.row}"


@dataclass(frozen=True)
class Rectangle:
    """The cells from one corner to the other, both included."""

    first: Address
    last: Address

    @classmethod
    def parse(cls, text: str) -> "Rectangle | None":
        """Reads `B7` or `A1:B7`, the corners in any order."""
        corners = [Address.parse(part) for part in text.split(":")]
        if len(corners) > 2 or None in corners:
            return None
        known = [corner for corner in corners if corner is not None]
        rows, columns = [c.row for c in known], [c.column for c in known]
        return cls(Address(min(rows), min(columns)), Address(max(rows), max(columns)))

    def __contains__(self, cell: Address) -> bool:
        return self.first.row <= cell.row <= self.last.row and self.first.column <= cell.column <= self.last.column

    def cells(self) -> int:
        return (self.last.row - self.first.row + 1) * (self.last.column - self.first.column + 1)
