"""The cells of a workbook, as a session sees and edits them."""

from __future__ import annotations

from collections.abc import Sequence
from typing import Any, Optional

from .addresses import address_of, corners_of, grid_of, place_of, rect_of
from .answers import Change, Changes, Grid
from .process import Process
from .reader import Reader
from .rows import fitted, is_row, rows_of
from .script import data_lines
from .spelling import Spelling, checked_formula, content_of, csv_data, is_alone
from .values import Numbers, Value, read, read_kind

LARGEST_AREA = 65_536
MOST_COLUMNS, MOST_ROWS = 16, 40


class Sheet:
    """Edits and looks at cells."""

    def __init__(self, process: Process, reader: Reader, spelling: Spelling, name: str) -> None:
        self._process = process
        self._reader = reader
        self._spelling = spelling
        self.name = name

    def __repr__(self) -> str:
        return f"<{type(self).__name__} {self.name}: {self._process.lines} lines, scenario {self.scenario_in_use}>"

    def _repr_html_(self) -> str:
        return self.page()._repr_html_()

    def page(self) -> Grid:
        """The part of the sheet that shows something, from A1 on, as far as it fits on a page."""
        known = self._reader.look(self.scenario_in_use)
        cells = [cell for cell, value in known.items() if value is not None]
        right, bottom = corners_of(rect_of(cells))[2:] if cells else (1, 1)
        return self.values(f"A1:{address_of(min(right, MOST_COLUMNS), min(bottom, MOST_ROWS))}")

    def command(self, line: str, data: bytes = b"") -> list[list[str]]:
        """The records that a command is answered, as this session. The data lines of a csv are `data`.

        book.command("table B4 B1 D2:D9")
        """
        if not line.strip(" ") or line.startswith("#"):
            return []  # these have no reply
        if data_lines(line) != data.count(b"\n"):
            raise ValueError(f"{line[:60]!r} and its data lines don't agree")
        return self._process.run(self.name, line, data)

    @property
    def scenario_in_use(self) -> Optional[str]:
        """The name of the scenario that this session uses."""
        return self._process.journal.in_use.get(self.name)

    # Cells

    def __getitem__(self, rect: str) -> Any:
        """The value of a cell, or the values of a rectangle.

        book["B4"]; book["A1:B4"].frame()
        """
        return self.values(rect) if ":" in checked(rect) else self.value(rect)

    def __setitem__(self, rect: str, value: Any) -> None:
        """Puts a value into a cell, or into each cell of a rectangle; or rows of values, a flat list, a DataFrame.

        book["B1"] = 250; book["A1:A9"] = 0; book["B4"] = Formula("=[.B1]*[.B2]"); book["A1"] = frame
        """
        if ":" in checked(rect):
            left, top, right, bottom = corners_of(rect)
            self.put(address_of(left, top), fitted(value, right - left + 1, bottom - top + 1))
        elif value is not None and is_row(value):
            self.put(rect, value)
        else:
            self.set(rect, value)

    def __delitem__(self, rect: str) -> None:
        """Empties the cells of a rectangle."""
        self.clear(checked(rect))

    # Edits

    def set(self, address: str, value: Any, force: bool = False) -> None:
        """Puts a number, a bool, a date, a str or None into a cell. A str is a text, whatever number it spells; `Formula(..)` is a formula.

        book.set("B1", Decimal("0.32")); book.set("A1", "007"); book.set("A2", None)
        """
        if value is None:
            self.clear(address, force)
        elif not isinstance(value, str):
            self._edit(force, f"set {address} {self._spelling.plain(value)}")
        elif "\n" in value or "\r" in value:
            self._import(force, address, [[self._spelling.field(value, address)]])
        else:
            self._edit(force, f"set {address} {content_of(value)}")

    def set_formula(self, address: str, formula: str, force: bool = False) -> None:
        """Puts a formula.

        book.set_formula("B4", "=[.B1]*[.B2]+[.B3]")
        """
        self._edit(force, f"set {address} {checked_formula(formula)}")

    def put(self, address: str, rows: Any, force: bool = False, header: bool = True, index: bool = False) -> None:
        """Puts rows of values from a cell on, as one edit. None empties its cell; in a DataFrame so does NaN, NA or NaT.

        A flat list is a row, and a Series is a column. A DataFrame is put below the names of its columns, unless `header` is False,
        and behind its index if `index` is True. Formulas and texts that spell another value (`007`, `TRUE`, an empty one) are put by
        an edit of their own after that one.

        book.put("A1", [["rent", 900], ["food", 620.50]])
        """
        column, row = place_of(address)
        fields: list[list[str]] = []
        alone: list[tuple[str, str]] = []
        for down, values in enumerate(rows_of(rows, header, index)):
            cells = [(address_of(column + right, row + down), value) for right, value in enumerate(values)]
            if not cells:
                raise ValueError(f"row {down + 1} has no values")
            alone += [(cell, content_of(value)) for cell, value in cells if is_alone(value)]
            fields.append(["0" if is_alone(value) else self._spelling.field(value, cell) for cell, value in cells])
        self._import(force, address, fields)
        for cell, content in alone:
            self._edit(force, f"set {cell} {content}")

    def _import(self, force: bool, address: str, fields: list[list[str]]) -> None:
        data = csv_data(fields)
        count = data.count(b"\n")
        self._edit(force, f"csv {address} {count}", data)

    def clear(self, rect: str, force: bool = False) -> None:
        """Empties the cells of a rectangle."""
        self._edit(force, f"clear {rect}")

    def fill(self, address: str, rect: str, force: bool = False) -> None:
        """Copies a cell to each cell of a rectangle; relative references move along."""
        self._edit(force, f"fill {address} {rect}")

    def _edit(self, force: bool, line: str, data: bytes = b"") -> None:
        self.command(f"force {line}" if force else line, data)

    # Looks

    def show(self, rect: str) -> list[list[str]]:
        """What the cells of a rectangle show, as texts, row by row."""
        return self.command(f"show {rect}")

    def formula(self, address: str) -> str:
        """The content of a cell: a formula, `'` and a text, another constant, or nothing."""
        return self.command(f"formula {address}")[0][1]

    def values(self, rect: str) -> Grid:
        """The values of a rectangle with their kinds: the text 5 is `'5'`, the number is `Fraction(5)`.

        They come by `changes` to a session of the client's own, so the first call reads the whole sheet, and each later one
        what has changed since.
        """
        grid = grid_of(rect)
        known = self._reader.look(self.scenario_in_use)
        return Grid(rect, [[known.get(address) for address in row] for row in grid])

    def value(self, address: str) -> Value:
        """The value of a cell: a Fraction, a bool, a str, a CellError, or None if it is empty."""
        place_of(address)
        return self._reader.look(self.scenario_in_use).get(address.upper())

    def frame(self, rect: str, numbers: Numbers = float, header: bool = True) -> Any:
        """A DataFrame of a rectangle whose first row names the columns. Numbers are floats, or what `numbers` makes of a Fraction:
        `Decimal`, `Fraction`.

        book.frame("A1:D200")
        """
        return self.values(rect).frame(numbers, header)

    def changes(self) -> Changes:
        """What differs from what this session was last shown; from now on it counts as shown."""
        return Changes([Change(at, kind, read_kind(kind, text)) for at, kind, text in self.command("changes")])

    def labels(self, cells: Sequence[str]) -> dict[str, str]:
        """The text beside each of these cells, at its left or else above it, where there is one.

        book.labels(["B1", "B4"])   # {"B1": "consumption", "B4": "bill"}
        """
        if not cells:
            return {}
        _, top, right, bottom = corners_of(rect_of(list(cells)))
        first = max(1, top - 1)
        if right * (bottom - first + 1) > LARGEST_AREA:
            return {}
        shown = self.show(f"A{first}:{address_of(right, bottom)}")
        found = {}
        for cell in cells:
            column, row = place_of(cell)
            left = [text for text in shown[row - first][: column - 1] if text]
            above = shown[row - first - 1][column - 1] if row > first else ""
            label = next((text for text in (*left[-1:], above) if isinstance(read(text), str)), None)
            if label is not None:
                found[cell] = label
        return found


def checked(rect: Any) -> str:
    """The address of a cell or of a rectangle."""
    if not isinstance(rect, str):
        raise TypeError(f"a cell has an address, as in book['B1'] or book['A1:D9'], and {rect!r} is none")
    corners_of(rect)
    return rect
