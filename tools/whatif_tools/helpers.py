"""Cells of help, to the right of all sheets: what a formula of a spreadsheet does inside, a column of its own has here."""

import re
from dataclasses import dataclass, field

from .grid import Area, area
from .pieces import CannotGoOver
from .sheet import COLUMNS, Address, Rectangle, column_letters

MOST_CELLS = 100_000
REFERENCE = re.compile(r'"[^"]*"|\[[^\]]*\]')
PART = re.compile(r"\.\$?([A-Za-z]+)\$?([0-9]+)")


@dataclass(frozen=True)
class Block:
    """A rectangle of help: the formula of its first cell, which the others are filled from, and what it is for."""

    place: Rectangle
    first: str
    rest: str
    why: str

    @property
    def text(self) -> str:
        """The block as a reference."""
        return reference(self.place)

    def lines(self) -> str:
        first = self.place.first
        filled = [f"set {first} {self.first}\n"]
        rest = self.others()
        if rest is not None and self.rest != self.first:
            filled.append(f"set {rest.first} {self.rest}\n")
        if rest is not None and rest.cells() > (1 if self.rest != self.first else 0):
            filled.append(f"fill {rest.first if self.rest != self.first else first} {rest.first}:{rest.last}\n")
        return "".join(filled)

    def told(self) -> str:
        """Where it is, and what for."""
        first, last = self.place.first, self.place.last
        return f"{first if first == last else f'{first}:{last}'}: {self.why}"

    def others(self) -> Rectangle | None:
        """The cells that are filled: all where the block is wide, those below the first where it is a column."""
        first, last = self.place.first, self.place.last
        if first == last:
            return None
        return self.place if first.column < last.column else Rectangle(Address(first.row + 1, first.column), last)


@dataclass
class Helpers:
    """The blocks so far; equal ones are made once."""

    column: int
    """The first free column, counted from 0."""

    blocks: dict[tuple[str, int, int, int], Block] = field(default_factory=dict)
    cells: int = 0

    def block(self, row: int, rows: int, columns: int, first: str, why: str, rest: str | None = None) -> Block:
        """A block from a row on; `rest` is the formula of its second cell where that is another one."""
        key = (first, row, rows, columns)
        if key in self.blocks:
            return self.blocks[key]
        self.cells += rows * columns
        if self.cells > MOST_CELLS or self.column + columns > COLUMNS:
            raise CannotGoOver(f"more than {MOST_CELLS} cells of help")
        place = Rectangle(Address(row, self.column + 1), Address(row + rows - 1, self.column + columns))
        made = Block(place, first, first if rest is None else rest, why)
        self.blocks[key] = made
        self.column += columns + 1
        return made

    def mark(self) -> tuple[int, int, int]:
        return self.column, self.cells, len(self.blocks)

    def since(self, mark: tuple[int, int, int]) -> list[Block]:
        """The blocks that came behind a mark."""
        return list(self.blocks.values())[mark[2] :]

    def back_to(self, mark: tuple[int, int, int]) -> None:
        """Takes the blocks away that came behind a mark."""
        self.column, self.cells, count = mark
        for key in list(self.blocks)[count:]:
            del self.blocks[key]


def reference(place: Rectangle) -> str:
    first = f".{column_letters(place.first.column)}{place.first.row}"
    last = f".{column_letters(place.last.column)}{place.last.row}"
    return f"[{first}]" if first == last else f"[{first}:{last}]"


def rectangle_of(text: str) -> Rectangle:
    """The cells of a reference of whatif, as it is written."""
    known: Area = area(text)
    return known.moved(0, 0)


def relative_cell(place: Rectangle) -> str:
    """Its first cell, which moves when it is filled."""
    return reference(Rectangle(place.first, place.first))


def pinned(text: str) -> str:
    """A text of formula whose references don't move when it is filled."""
    return REFERENCE.sub(lambda found: found[0] if found[0].startswith('"') else PART.sub(r".$\1$\2", found[0]), text)
