"""The names of cells: the text at the left, and the head of the list in which they stand."""

from __future__ import annotations

from collections.abc import Callable

from .answers import CORNER, letters_value

FARTHEST = 8
WIDEST_GAP = 2
LONGEST = 60


class Names:
    """Names by what stands around a cell; rows and columns are counted from 1.

    `text` gives the text that a cell shows, None for other values and for an empty cell; `is_filled` says whether it shows anything.

    >>> texts = {(1, 2): "price", (2, 1): "plum"}
    >>> Names(lambda row, column: texts.get((row, column)), lambda row, column: row <= 2 and column <= 2).of(2, 2) == "plum \u00b7 price"
    True
    """

    def __init__(self, text: Callable[[int, int], str | None], is_filled: Callable[[int, int], bool]) -> None:
        self._text, self._is_filled = text, is_filled
        self._heads: dict[tuple[int, int], tuple[str | None, bool]] = {}
        """The head of each cell that was looked at, and whether all cells up to it are texts."""

    def of(self, row: int, column: int) -> str:
        """Both parts of the name, as far as they are there; else nothing."""
        parts = (self.left(row, column), self.head(row, column))
        name = " \u00b7 ".join(part for part in parts if part)
        return name if len(name) <= LONGEST else name[: LONGEST - 1] + "\u2026"

    def at(self, address: str) -> str:
        """The name of the cell of an address, such as B4; nothing for what is none."""
        found = CORNER.fullmatch(address)
        return self.of(int(found[2]), letters_value(found[1])) if found else ""

    def text(self, row: int, column: int) -> str | None:
        return " ".join((self._text(row, column) or "").split()) or None

    def left(self, row: int, column: int) -> str | None:
        """The nearest text at the left, behind other values or behind a gap of a cell or two; behind both it is another block's."""
        has_value, gap = False, 0
        for before in range(column - 1, max(0, column - 1 - FARTHEST), -1):
            text = self.text(row, before)
            if text is not None:
                return text
            is_filled = self._is_filled(row, before)
            has_value, gap = has_value or is_filled, gap + (not is_filled)
            if gap > WIDEST_GAP or has_value and gap:
                return None
        return None

    def head(self, row: int, column: int) -> str | None:
        """The text with which the list begins in which the cell stands: the last of the texts at its top."""
        rows: list[int] = []
        above = row - 1
        while (above, column) not in self._heads and above > 0 and self._is_filled(above, column):
            rows.append(above)
            above -= 1
        found, is_top = self._heads.get((above, column), (None, True))
        for below in reversed(rows):
            text = self.text(below, column) if is_top else None
            found, is_top = (text, True) if text is not None else (found, False)
            self._heads[below, column] = found, is_top
        return found
