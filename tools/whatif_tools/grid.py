"""What a script has put into cells so far, and which cells a formula rests on."""

import re
from collections.abc import Iterable, Iterator
from dataclasses import dataclass, field
from functools import lru_cache

from .data import records
from .formula import Kind, is_formula, tokens_of
from .script import Command
from .sheet import COLUMNS, ROWS, Address, Rectangle, column_number

MOST_CELLS_APART = 4_096
"""A fill or a clear of more cells is kept as an area."""

MOST_AREAS = 1_000
MOST_STEPS = 200_000
"""So many cells are looked at to see which ones rest on others."""

CORNER = re.compile(r"\.(\$?)([A-Za-z]+)(\$?)([0-9]+)")


@dataclass(frozen=True)
class Corner:
    """A corner of a reference; what is absolute doesn't move."""

    row: int
    column: int
    is_row_absolute: bool
    is_column_absolute: bool

    def moved(self, rows: int, columns: int) -> Address:
        row = self.row if self.is_row_absolute else self.row + rows
        return Address(row, self.column if self.is_column_absolute else self.column + columns)


@dataclass(frozen=True)
class Area:
    """A reference as it is written."""

    first: Corner
    last: Corner

    def moved(self, rows: int, columns: int) -> Rectangle:
        one = self.first.moved(rows, columns)
        if self.first is self.last:
            return Rectangle(one, one)
        two = self.last.moved(rows, columns)
        return Rectangle(Address(min(one.row, two.row), min(one.column, two.column)), Address(max(one.row, two.row), max(one.column, two.column)))


def corner(found: re.Match[str]) -> Corner:
    return Corner(int(found[4]), column_number(found[2]), bool(found[3]), bool(found[1]))


def area(text: str) -> Area:
    corners = [corner(found) for found in CORNER.finditer(text)]
    return Area(corners[0], corners[-1])


@lru_cache(maxsize=65_536)
def areas_of(formula: str) -> tuple[Area, ...]:
    """The references of a formula."""
    tokens = tokens_of(formula, formula.index("=") + 1).tokens
    return tuple(area(token.text) for token in tokens if token.kind is Kind.REFERENCE)


@dataclass(frozen=True)
class WhatIf:
    """The cells that a MULTIPLE.OPERATIONS names: the result, the inputs, and what they get."""

    result: Address
    inputs: tuple[Address, ...]


@dataclass(frozen=True)
class Content:
    """What stands in a cell: a formula as it was written for another one perhaps, a constant, or nothing."""

    line: int
    formula: str | None = None
    written_for: Address | None = None
    is_empty: bool = False

    def reads(self, cell: Address) -> list[Rectangle]:
        if self.formula is None or self.written_for is None:
            return []
        rows, columns = cell.row - self.written_for.row, cell.column - self.written_for.column
        return [found.moved(rows, columns) for found in areas_of(self.formula)]

    def what_ifs(self, cell: Address) -> Iterator[WhatIf]:
        """The what-ifs of its formula."""
        if self.formula is None or "MULTIPLE" not in self.formula.upper():
            return
        areas = self.reads(cell)
        tokens = tokens_of(self.formula, self.formula.index("=") + 1).tokens
        seen = 0
        for at, token in enumerate(tokens):
            if token.is_what_if:
                named = [area.first for area in areas[seen : seen + (5 if has_two_inputs([known.text for known in tokens[at:]]) else 3)]]
                yield WhatIf(named[0], tuple(named[1::2]))
            seen += token.kind is Kind.REFERENCE


def has_two_inputs(texts: list[str]) -> bool:
    """Whether the what-if that begins here has five cells: a semicolon is behind the third."""
    return texts[7:8] == [";"]


EMPTY = Content(0, is_empty=True)


@dataclass
class Grid:
    """The contents of cells, by the commands that were accepted."""

    cells: dict[Address, tuple[int, Content]] = field(default_factory=dict)
    areas: list[tuple[int, Rectangle, Content]] = field(default_factory=list)
    edits: int = 0
    steps_left: int = MOST_STEPS

    @property
    def is_known(self) -> bool:
        """Whether all is known: past many large areas no more is kept."""
        return len(self.areas) <= MOST_AREAS

    def at(self, cell: Address) -> Content:
        when, content = self.cells.get(cell, (0, EMPTY))
        for since, area, later in reversed(self.areas):
            if since < when:
                break
            if cell in area:
                return later
        return content

    def accept(self, command: Command) -> list[tuple[Address, Content]]:
        """Takes an accepted edit over; gives the formulas over which it has put constants."""
        self.edits += 1
        words = command.words
        if words[0] == "set" and command.content is not None:
            cell, text = place(words[1]), command.content
            if not is_formula(text):
                return self.put_constants([(command.line, cell, text)])
            self.cells[cell] = (self.edits, Content(command.line, text, cell))
        if words[0] == "csv":
            return self.put_constants(csv_cells(command))
        if words[0] in ("clear", "fill"):
            target = Rectangle.parse(words[-1])
            source = place(words[1]) if words[0] == "fill" else None
            if target is not None:
                self.put_area(target, EMPTY if source is None else moved_to(self.at(source), command.line))
        return []

    def put_constants(self, texts: Iterable[tuple[int, Address, str]]) -> list[tuple[Address, Content]]:
        covered: list[tuple[Address, Content]] = []
        for line, cell, text in texts:
            before = self.at(cell)
            if before.formula is not None and text and not self.reach(before.reads(cell), cell):
                covered.append((cell, before))
            self.cells[cell] = (self.edits, Content(line, is_empty=text == ""))
        return covered

    def put_area(self, target: Rectangle, content: Content) -> None:
        if target.cells() <= MOST_CELLS_APART:
            self.cells.update((cell, (self.edits, content)) for cell in cells_of(target))
        elif self.is_known:
            self.areas = [known for known in self.areas if not (known[1].first in target and known[1].last in target)]
            self.areas.append((self.edits, target, content))

    def formulas(self, within: Rectangle) -> Iterator[tuple[Address, Content]]:
        """The cells of a rectangle that have formulas."""
        if within.cells() <= len(self.cells):
            apart = (cell for cell in cells_of(within) if cell in self.cells)
        else:
            apart = (cell for cell in list(self.cells) if cell in within)
        covered = (cell for _, area, content in self.areas if content.formula is not None for cell in cells_of(common(area, within)))
        for cell in [*apart, *covered]:
            content = self.at(cell)
            if content.formula is not None:
                yield cell, content

    def rests_on(self, cell: Address, sought: Address) -> bool | None:
        """Whether a cell is another one or reads it, by others perhaps; None where that takes too long to tell."""
        return self.reach([Rectangle(cell, cell)], sought)

    def reach(self, areas: list[Rectangle], sought: Address) -> bool | None:
        """Whether a cell lies in one of these areas, or a formula there rests on it."""
        waiting, seen = list(areas), set[Address]()
        while waiting:
            area = waiting.pop()
            if sought in area:
                return True
            self.steps_left -= min(area.cells(), len(self.cells))
            found = self.formulas(area) if area.first != area.last else self.formula_at(area.first)
            for reader, content in found:
                self.steps_left -= 1
                if self.steps_left < 0:
                    return None
                if reader not in seen:
                    seen.add(reader)
                    waiting += [read for read in content.reads(reader) if read.first != read.last or read.first not in seen]
        return False

    def formula_at(self, cell: Address) -> Iterator[tuple[Address, Content]]:
        content = self.at(cell)
        if content.formula is not None:
            yield cell, content

    def what_ifs(self) -> Iterator[tuple[Content, WhatIf]]:
        """The what-ifs of all cells."""
        everywhere = Rectangle(Address(1, 1), Address(ROWS, COLUMNS))
        for cell, content in self.formulas(everywhere):
            yield from ((content, found) for found in content.what_ifs(cell))


def place(word: str) -> Address:
    address = Address.parse(word)
    assert address is not None, word
    return address


def moved_to(content: Content, line: int) -> Content:
    return Content(line, content.formula, content.written_for, content.is_empty)


def cells_of(area: Rectangle | None) -> Iterator[Address]:
    if area is not None:
        for row in range(area.first.row, area.last.row + 1):
            yield from (Address(row, column) for column in range(area.first.column, area.last.column + 1))


def common(one: Rectangle, two: Rectangle) -> Rectangle | None:
    """The cells that two rectangles have in common."""
    first = Address(max(one.first.row, two.first.row), max(one.first.column, two.first.column))
    last = Address(min(one.last.row, two.last.row), min(one.last.column, two.last.column))
    return Rectangle(first, last) if first.row <= last.row and first.column <= last.column else None


def csv_cells(command: Command) -> Iterator[tuple[int, Address, str]]:
    """The cells of a csv, with the line in which the record of each begins; a field is never a formula."""
    first = place(command.words[1])
    for down, record in enumerate(records(command)):
        for right, text in enumerate(record.fields):
            yield record.line, Address(first.row + down, first.column + right), text
