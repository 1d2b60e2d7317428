"""The constants on which a cell rests, found from the formulas; and which of them are quantities."""

import re
from bisect import bisect_left, bisect_right
from collections import deque
from collections.abc import Iterator, Mapping
from fractions import Fraction

from ..errors import references
from ..sheet import Address, Rectangle
from .labels import Cells

YEARS = range(1900, 2101)
RATE_OF_A_YEAR = re.compile(r"\b(?:of|per|a|each|every|in|for) (?:(?:a|the|each|every) )?years?\b", re.IGNORECASE)
YEAR = re.compile(r"\b(?:year|date|jahr|datum|ann[eé]e|a[nñ]o)\b", re.IGNORECASE)
IDENTIFIER = re.compile(r"\b(?:id|code|zip|postcode|phone|account number|seed|version)\b", re.IGNORECASE)
LEFT_OUT = (
    "What is no quantity isn't tried: texts, truth values and 0; a 1 with which a column of formulas begins; whole numbers from 1900 to 2100"
    " that are named a year or a date; and what is named an id, code, postcode, phone, seed or version."
)


class Sheet:
    """The cells that show something, by column, with the formulas among them."""

    def __init__(self, cells: Cells, formulas: Mapping[Address, str]) -> None:
        self.cells, self.formulas = cells, formulas
        self.columns: dict[int, list[int]] = {}
        for at in sorted(cells):
            self.columns.setdefault(at.column, []).append(at.row)

    def inside(self, area: Rectangle) -> Iterator[Address]:
        """The cells of an area that show something."""
        for column, rows in self.columns.items():
            if area.first.column <= column <= area.last.column:
                first, last = bisect_left(rows, area.first.row), bisect_right(rows, area.last.row)
                yield from (Address(row, column) for row in rows[first:last])

    def begins_a_column(self, at: Address) -> bool:
        """Whether the formula below reads this cell, as it does where a counter or a power goes on from its first value."""
        below = self.formulas.get(Address(at.row + 1, at.column), "")
        return any(at in area for area in references(below))

    def inputs(self, goal: Address, replaced: frozenset[Address] = frozenset()) -> list[Address]:
        """The constant numbers on which a cell rests, the nearest first; a replaced cell is one too."""
        found: list[Address] = []
        seen, areas, waiting = {goal}, set(), deque([goal])
        while waiting:
            at = waiting.popleft()
            if at not in self.formulas or at in replaced:
                if self.cells.get(at, ("-", ""))[0] == "N" and at != goal:
                    found.append(at)
                continue
            for area in references(self.formulas[at]):
                if area in areas:
                    continue
                areas.add(area)
                fresh = [cell for cell in self.inside(area) if cell not in seen]
                seen.update(fresh)
                waiting += fresh
        return found


def is_quantity(value: Fraction, name: str) -> bool:
    """Whether it makes sense to have a tenth more of it."""
    is_year = value.denominator == 1 and int(value) in YEARS and YEAR.search(RATE_OF_A_YEAR.sub("", name)) is not None
    return value != 0 and not is_year and IDENTIFIER.search(name) is None
