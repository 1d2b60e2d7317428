"""What a script has so far, as far as its generator has to know it so that most lines make sense."""

from collections.abc import Mapping, Sequence
from dataclasses import dataclass, field
from random import Random
from typing import TypeVar

from whatif_tools.sheet import COLUMNS, ROWS, column_letters

Cell = tuple[int, int]
"""A row and a column, counted from 0."""

Kind = str
"""`number`, `text` or `truth`: what a cell most probably shows."""

Choice = TypeVar("Choice")


def letters(column: int) -> str:
    return column_letters(column + 1)


def word(cell: Cell) -> str:
    return letters(cell[1]) + str(cell[0] + 1)


def is_in_sheet(cell: Cell) -> bool:
    return 0 <= cell[0] < ROWS and 0 <= cell[1] < COLUMNS


@dataclass(frozen=True)
class Area:
    """A rectangle of cells."""

    top: int
    left: int
    rows: int
    columns: int

    @property
    def bottom(self) -> int:
        return self.top + self.rows - 1

    @property
    def right(self) -> int:
        return self.left + self.columns - 1

    def cells(self) -> list[Cell]:
        return [(row, column) for row in range(self.top, self.bottom + 1) for column in range(self.left, self.right + 1)]

    def has(self, cell: Cell) -> bool:
        return self.top <= cell[0] <= self.bottom and self.left <= cell[1] <= self.right


@dataclass
class Draft:
    """The little area that the script works on, and what its lines have most probably put there."""

    random: Random
    area: Area
    downwards: bool = True
    """Whether formulas read what is above them, and else what is below."""
    rightwards: bool = True
    """Whether formulas read what is to their left, and else what is to their right."""
    kinds: dict[Cell, Kind] = field(default_factory=dict)
    named: dict[Cell, list[Cell]] = field(default_factory=dict)
    """For each formula cell the cells that its formula names."""
    scenarios: list[str] = field(default_factory=list)
    replaced: list[Cell] = field(default_factory=list)
    """The cells that scenarios replace."""
    sessions: list[str] = field(default_factory=lambda: ["main"])

    # ---- choices

    def chance(self, percent: float) -> bool:
        return self.random.random() * 100 < percent

    def pick(self, weights: Mapping[Choice, float]) -> Choice:
        return self.random.choices(list(weights), list(weights.values()))[0]

    def one(self, choices: Sequence[Choice]) -> Choice:
        return self.random.choice(choices)

    # ---- cells

    def cell(self) -> Cell:
        return self.one(self.area.cells())

    def filled(self) -> Cell:
        """A cell with a content, or any."""
        return self.one(sorted(self.kinds)) if self.kinds else self.cell()

    def formula_cell(self) -> Cell:
        return self.one(sorted(self.named)) if self.named else self.cell()

    def inner(self, whole: Area, most_rows: int, most_columns: int) -> Area:
        """A rectangle inside another."""
        rows = self.random.randint(1, min(whole.rows, most_rows))
        columns = self.random.randint(1, min(whole.columns, most_columns))
        top = self.random.randint(whole.top, whole.bottom - rows + 1)
        left = self.random.randint(whole.left, whole.right - columns + 1)
        return Area(top, left, rows, columns)

    def before(self, cell: Cell) -> list[Area]:
        """Rectangles that a formula in this cell may read without closing a cycle."""
        area, (row, column) = self.area, cell
        above = (area.top, row - area.top) if self.downwards else (row + 1, area.bottom - row)
        beside = (area.left, column - area.left) if self.rightwards else (column + 1, area.right - column)
        with_row = (area.top, above[1] + 1) if self.downwards else (row, above[1] + 1)
        found = []
        if beside[1] > 0:
            found.append(Area(with_row[0], beside[0], with_row[1], beside[1]))
        if above[1] > 0:
            left = area.left if self.rightwards else column
            found.append(Area(above[0], left, above[1], beside[1] + 1))
        return found

    def far_from_inputs(self) -> Cell:
        """A cell that has something to read, mostly."""
        found = [self.cell() for _ in range(3)]
        return max(found, key=lambda cell: sum(area.rows * area.columns for area in self.before(cell)))

    def named_by(self, cell: Cell) -> list[Cell]:
        """The cells that a formula names, directly or through others."""
        found: list[Cell] = []
        left = [cell]
        while left:
            for named in self.named.get(left.pop(), []):
                if named not in found:
                    found.append(named)
                    left.append(named)
        return found

    # ---- what lines do

    def put(self, cell: Cell, kind: Kind | None, named: list[Cell] | None = None) -> None:
        self.kinds.pop(cell, None)
        self.named.pop(cell, None)
        if kind is not None:
            self.kinds[cell] = kind
        if named is not None:
            self.named[cell] = named

    def copy(self, source: Cell, to: Cell) -> None:
        down, right = to[0] - source[0], to[1] - source[1]
        named = self.named.get(source)
        moved = None if named is None else [(row + down, column + right) for row, column in named]
        self.put(to, self.kinds.get(source), moved and [cell for cell in moved if is_in_sheet(cell)])
