"""The names of cells by what all cells show."""

from collections.abc import Mapping

from whatif.drawing import Names

from ..sheet import Address

Cells = Mapping[Address, tuple[str, str]]
"""What each cell that isn't empty shows: its kind and its text."""


def names_in(cells: Cells) -> Names:
    def text(row: int, column: int) -> str | None:
        kind, shown = cells.get(Address(row, column), ("-", ""))
        return shown if kind == "T" else None

    return Names(text, lambda row, column: Address(row, column) in cells)
