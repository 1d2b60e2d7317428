"""The answers of a `table`: what a cell would show for each value of one input, or of two."""

from __future__ import annotations

import re
from dataclasses import dataclass, field
from fractions import Fraction
from functools import cached_property

from .label import Label
from .values import extremes, is_error, places_for

CORNER = re.compile("([A-Za-z]+)([0-9]+)")


@dataclass(frozen=True)
class Answers:
    """The entries by row and column. With one input there is one column, whose head is empty."""

    result: Label
    first: Label
    second: Label | None
    xs: list[str]
    ys: list[str]
    entries: list[list[str]]
    now: tuple[str, str] = ("", "")
    """What the inputs show."""

    cells: tuple[str, str] = ("", "")
    """The column and the row that have the values."""

    places: int | None = None
    numbers: list[list[Fraction | None]] = field(default_factory=list)

    @cached_property
    def known(self) -> list[Fraction]:
        return [number for line in self.numbers for number in line if number is not None]

    @cached_property
    def ends(self) -> tuple[Fraction, Fraction]:
        """The lowest and the highest number, if there is one."""
        return extremes(self.known) if self.known else (Fraction(0), Fraction(0))

    def are_alike(self) -> bool:
        """Whether all of several entries show the same, which is no error."""
        first = self.entries[0][0] if self.entries and self.entries[0] else ""
        is_same = all(text == first for line in self.entries for text in line)
        return is_same and not is_error(first) and sum(map(len, self.entries)) > 1

    def errors(self) -> list[tuple[int, int]]:
        """The row and the column of each entry that shows an error."""
        return [(i, j) for i, line in enumerate(self.entries) for j, text in enumerate(line) if is_error(text)]

    def drawn_places(self) -> int:
        return places_for(self.known, self.places)

    def is_now(self, i: int, j: int) -> bool:
        """Whether the inputs have the values of an entry."""
        return self.xs[i] == self.now[0] != "" and (self.second is None or self.ys[j] == self.now[1])

    def places_of(self, i: int, j: int) -> tuple[str, str]:
        """The cells that have the values of an entry, in parentheses, if they are known."""
        column, row = (CORNER.match(area) for area in self.cells)
        x_at = f" ({column[1].upper()}{int(column[2]) + i})" if column else ""
        return x_at, f" ({letters_behind(row[1], j)}{row[2]})" if row else ""

    def rows(self) -> list[list[str]]:
        """The exact entries, below a row of heads."""
        heads = [self.first.text, *(self.ys if self.second else [self.result.text])]
        return [heads, *([x, *line] for x, line in zip(self.xs, self.entries))]


def letters_value(letters: str) -> int:
    """The number of a column.

    >>> letters_value("A"), letters_value("aa")
    (1, 27)
    """
    number = 0
    for letter in letters.upper():
        number = number * 26 + ord(letter) - ord("A") + 1
    return number


def letters_behind(letters: str, count: int) -> str:
    """The letters of the column that is so many behind one.

    >>> letters_behind("Z", 1)
    'AA'
    """
    number, found = letters_value(letters) + count, ""
    while number > 0:
        number, rest = divmod(number - 1, 26)
        found = chr(ord("A") + rest) + found
    return found
