"""Sheets side by side: where each begins, and references moved there."""

import re
from collections.abc import Iterator
from dataclasses import dataclass, field

from .document import Document, Name, Sheet
from .formula import CELL, is_formula
from .pieces import REFERENCE, CannotGoOver, PieceKind, leaves, tree_of
from .sheet import COLUMNS, ROWS, Address, column_letters, column_number

QUOTED = r"'(?:[^']|'')*'(?!')"
SHEET = rf"(?:\$?(?:{QUOTED}|[^.'\[\]:#$]+))?"
CELLS = re.compile(rf"\[(?P<sheet>{SHEET})\.(?P<first>{CELL})(?::(?P<other>{SHEET})\.(?P<last>{CELL}))?\]")
WHOLE_COLUMNS = re.compile(rf"\[(?P<sheet>{SHEET})\.(?P<first>\$?[A-Za-z]+):(?P<other>{SHEET})\.(?P<last>\$?[A-Za-z]+)\]")
WHOLE_ROWS = re.compile(rf"\[(?P<sheet>{SHEET})\.(?P<first>\$?[0-9]+):(?P<other>{SHEET})\.(?P<last>\$?[0-9]+)\]")
PARTS = re.compile(r"(\$?)([A-Za-z]+)(\$?)([0-9]+)")
OTHER_SHEET = re.compile(r"\[[^.]|:[^.\]]")
"""A formula without it has references to its own sheet alone."""

GAP = 1
"""So many columns are empty between two sheets."""

LONGEST_REFERENCE = 1_000


def sheet_name(text: str) -> str:
    name = text.removeprefix("$")
    return name[1:-1].replace("''", "'") if name.startswith("'") else name


@dataclass(frozen=True)
class Referred:
    """What a reference of a file refers to: a sheet, and two corners as they are written there."""

    sheet: str
    first: str
    last: str
    is_cell: bool


def referred(text: str, sheet: Sheet, width: int) -> Referred:
    """Reads a reference in brackets; `width` is how many columns whole rows have."""
    found = CELLS.fullmatch(text) or WHOLE_COLUMNS.fullmatch(text) or WHOLE_ROWS.fullmatch(text) if len(text) <= LONGEST_REFERENCE else None
    if found is None:
        raise CannotGoOver(f"the reference {text[:80]}")
    name = sheet_name(found["sheet"]) or sheet.name
    if sheet_name(found["other"] or "") not in ("", name):
        raise CannotGoOver(f"the reference {text[:80]} to several sheets")
    first, last = found["first"], found["last"] or found["first"]
    if found.re is WHOLE_COLUMNS:
        first, last = f"{first}$1", f"{last}${ROWS}"
    elif found.re is WHOLE_ROWS:
        first, last = f"$A{first}", f"${column_letters(width)}{last}"
    return Referred(name, first, last, found["last"] is None)


@dataclass
class Places:
    """How many columns each sheet is moved to the right; the first isn't moved."""

    document: Document
    moved: dict[str, int] = field(default_factory=dict)

    @classmethod
    def of(cls, document: Document, first: Sheet, takes_all: bool = False) -> "Places":
        """Puts a sheet at the left, and beside it those that its formulas read, and theirs; or all."""
        places = cls(document)
        waiting, column = [first, *(document.sheets if takes_all else [])], 0
        for sheet in waiting:
            if sheet.name not in places.moved:
                places.moved[sheet.name] = column
                column += sheet.width() + GAP
                waiting += [] if takes_all else places.read_by(sheet)
        if column > COLUMNS:
            raise CannotGoOver(f"side by side the sheets have {column} columns, and there are {COLUMNS}")
        return places

    @property
    def width(self) -> int:
        """The first column behind all sheets, counted from 0."""
        return max((self.moved[sheet.name] + sheet.width() + GAP for sheet in self.sheets()), default=0)

    def read_by(self, sheet: Sheet) -> list[Sheet]:
        """The other sheets that formulas of a sheet read, in the order in which they are met."""
        formulas = dict.fromkeys(cell.formula for cell in sheet.cells.values() if cell.formula is not None)
        names = dict.fromkeys(name for formula in formulas for name in self.sheets_in(formula, sheet))
        return [found for name in names if (found := self.document.sheet(name)) is not None and found is not sheet]

    def sheets_in(self, formula: str, sheet: Sheet, depth: int = 0) -> Iterator[str]:
        has_names = bool(sheet.names or self.document.names)
        if not is_formula(formula) or not has_names and OTHER_SHEET.search(formula, formula.index("=")) is None:
            return
        try:
            found = list(leaves(tree_of(formula)))
        except CannotGoOver:
            return
        for piece in found:
            if piece.kind == REFERENCE:
                yield from self.sheet_in(piece.text, sheet)
            elif piece.kind == PieceKind.NAME.name and (name := self.name(piece.text, sheet)) is not None and depth < 20:
                yield from self.sheets_in(f"={expression_of(name)}", sheet, depth + 1)

    def sheet_in(self, reference: str, sheet: Sheet) -> Iterator[str]:
        try:
            yield referred(reference, sheet, 1).sheet
        except CannotGoOver:
            return

    def sheets(self) -> list[Sheet]:
        return [sheet for name in self.moved if (sheet := self.document.sheet(name)) is not None]

    def left_out(self) -> list[Sheet]:
        return [sheet for sheet in self.document.sheets if sheet.name not in self.moved]

    def place(self, sheet: Sheet, address: Address) -> Address:
        return Address(address.row, address.column + self.moved[sheet.name])

    def name(self, text: str, sheet: Sheet) -> Name | None:
        return sheet.names.get(text.upper()) or self.document.names.get(text.upper())

    def reference(self, text: str, sheet: Sheet) -> str:
        """A reference as whatif has it."""
        found = referred(text, sheet, self.own_width(sheet))
        if found.sheet not in self.moved:
            raise CannotGoOver(f"the reference {text[:80]} to another document or sheet")
        corners = [found.first] if found.is_cell else [found.first, found.last]
        return f"[{':'.join(shifted(corner, self.moved[found.sheet]) for corner in corners)}]"

    def own_width(self, sheet: Sheet) -> int:
        """How many columns a whole row of a sheet has: those in use, since other sheets and help stand beside it."""
        return max(sheet.width(), 1)


def expression_of(name: Name) -> str:
    """What a name stands for, as a part of a formula."""
    if name.range is not None:
        return f"[{name.range}]"
    expression = (name.expression or "").removeprefix("of:").removeprefix("=")
    return f"({expression})"


def shifted(cell: str, by: int) -> str:
    """A cell of a reference, moved to the right."""
    found = PARTS.fullmatch(cell)
    column = column_number(found[2]) if found is not None and len(found[2]) <= 3 else COLUMNS + 1
    if found is None or column + by > COLUMNS or len(found[4]) > 7:
        raise CannotGoOver(f"the reference {cell[:40]} outside the sheet")
    return f".{found[1]}{column_letters(column + by)}{found[3]}{found[4]}"
