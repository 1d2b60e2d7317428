"""A sheet of the reference, and the values of its cells, each found from nothing on an edited copy of the whole sheet."""

from dataclasses import dataclass, field

from tests.reference.grammar import Tree, WhatIf, reads
from tests.reference.values import CIRCULAR, Value, kind

Cell = tuple[int, int]
"""A row and a column, counted from 0, so that cells are ordered row by row."""

Rectangle = tuple[int, int, int, int]


def size(rectangle: Rectangle) -> tuple[int, int]:
    """How many rows and columns."""
    top, left, bottom, right = rectangle
    return bottom - top + 1, right - left + 1


def is_within(cell: Cell, rectangle: Rectangle) -> bool:
    top, left, bottom, right = rectangle
    return top <= cell[0] <= bottom and left <= cell[1] <= right


def cells_of(rectangle: Rectangle) -> list[Cell]:
    top, left, bottom, right = rectangle
    return [(row, column) for row in range(top, bottom + 1) for column in range(left, right + 1)]


@dataclass(frozen=True)
class Formula:
    tree: Tree


Content = Value | Formula


@dataclass
class Sheet:
    """What stands in each occupied cell. It isn't changed once a value was asked of it."""

    contents: dict[Cell, Content]
    known: dict[Cell, Value] = field(default_factory=dict)
    copies: dict[frozenset[tuple[Cell, str, Value]], "Sheet"] = field(default_factory=dict)
    """Edited copies by all that was put into the first sheet, with its kinds (TRUE equals 1), so that one copy isn't made twice."""
    put: dict[Cell, Value] = field(default_factory=dict)
    circular_cells: set[Cell] | None = None

    def occupied_in(self, rectangle: Rectangle) -> list[Cell]:
        """The occupied cells of a rectangle, in row-major order."""
        rows, columns = size(rectangle)
        if rows * columns <= len(self.contents):
            return [cell for cell in cells_of(rectangle) if cell in self.contents]
        return sorted(cell for cell in self.contents if is_within(cell, rectangle))

    def with_values(self, values: dict[Cell, Value]) -> "Sheet":
        """An edited copy in which constants stand in the place of contents, and nothing in the place of Empty ones."""
        put = {**self.put, **values}
        every = frozenset((cell, kind(value), value) for cell, value in put.items())
        if every not in self.copies:
            contents: dict[Cell, Content] = {**self.contents, **values}
            kept: dict[Cell, Content] = {cell: content for cell, content in contents.items() if content is not None}
            self.copies[every] = Sheet(kept, copies=self.copies, put=put)
        return self.copies[every]

    # ---- cycles

    def formulas_read(self, cell: Cell) -> list[Cell]:
        content = self.contents[cell]
        assert isinstance(content, Formula)
        return [
            read for rectangle in reads(content.tree) for read in self.occupied_in(rectangle) if isinstance(self.contents[read], Formula)
        ]

    def circular(self, cell: Cell) -> bool:
        """Whether the cell begins a chain of formula cells, each reading the next, that has no end."""
        if self.circular_cells is None:
            self.circular_cells = self.find_circular()
        return cell in self.circular_cells

    def find_circular(self) -> set[Cell]:
        """The formula cells that are left where each that reads no other one that is left was taken away."""
        left = {cell: set(self.formulas_read(cell)) for cell, content in self.contents.items() if isinstance(content, Formula)}
        readers: dict[Cell, list[Cell]] = {}
        for cell, read in left.items():
            for other in read:
                readers.setdefault(other, []).append(cell)
        ended = [cell for cell, read in left.items() if not read]
        while ended:
            cell = ended.pop()
            del left[cell]
            for reader in readers.get(cell, []):
                left[reader].discard(cell)
                if not left[reader] and reader in left:
                    ended.append(reader)
        return set(left)

    # ---- values

    def value(self, cell: Cell) -> Value:
        content = self.contents.get(cell)
        if not isinstance(content, Formula):
            return content
        if cell not in self.known:
            self.known[cell] = self.value_of_formula(cell, content.tree)
        return self.known[cell]

    def value_of_formula(self, cell: Cell, tree: Tree) -> Value:
        from tests.reference.functions import result

        return CIRCULAR if self.circular(cell) else result(self, tree)

    def what_if(self, cell: Cell, pairs: list[tuple[Cell, Cell]]) -> Value:
        """The value of a cell where each input has the value of another cell; these values are taken in this sheet."""
        return self.with_values({at: self.value(source) for at, source in pairs}).value(cell)


def what_if_of(sheet: Sheet, node: WhatIf) -> Value:
    cells = [reference.corner.cell for reference in node.references]
    return sheet.what_if(cells[0], list(zip(cells[1::2], cells[2::2])))
