"""What questions are answered: lists, as they always were, that can also be shown and made into frames."""

from __future__ import annotations

from collections import Counter
from collections.abc import Mapping, Sequence
from dataclasses import dataclass
from typing import Any

from .addresses import columns_of, corners_of
from .drawing import Label, Markup, comparison_html, fragment, table_html
from .html import html_table
from .values import Numbers, Value, as_numbers, shown


@dataclass(frozen=True)
class Axes:
    """An answer as a table: what it is of, the names of the rows and of the columns, and exact values."""

    caption: str
    row_name: str
    rows: Sequence[Value]
    column_name: str
    columns: Sequence[Value]
    values: Sequence[Sequence[Value]]

    def frame(self, numbers: Numbers) -> Any:
        import pandas

        def axis(names: Sequence[Value], name: str) -> Any:
            return pandas.Index([as_numbers(it, numbers) for it in names], name=name or None)

        data = [[as_numbers(value, numbers) for value in row] for row in self.values]
        return pandas.DataFrame(data, index=axis(self.rows, self.row_name), columns=axis(self.columns, self.column_name))

    def html(self) -> str:
        corner = f"{self.row_name} \\ {self.column_name}" if self.column_name else self.row_name
        return html_table(self.caption, [corner, *self.columns], list(zip(self.rows, self.values)))


class Answer(list[Any]):
    """A list that knows what was asked."""

    def axes(self) -> Axes:
        raise NotImplementedError

    def frame(self, numbers: Numbers = float) -> Any:
        """A DataFrame. Numbers are floats; or `Decimal`, `Fraction`, whatever is given.

        book.table("B4", "B1", [250, 400]).frame(Decimal)
        """
        return self.axes().frame(numbers)

    def drawn(self) -> Markup:
        """What `Workbook.report` shows of it."""
        return Markup(self.axes().html())

    def _repr_html_(self) -> str:
        return self.drawn()


class Grid(Answer):
    """The values of a rectangle, row by row. `rect` is its address, and `rows` are its values."""

    def __init__(self, rect: str, rows: Sequence[Sequence[Value]]) -> None:
        super().__init__([list(row) for row in rows])
        self.rect = rect
        self.rows = [*self]

    def axes(self) -> Axes:
        top = corners_of(self.rect)[1]
        numbers = [str(top + down) for down in range(len(self))]
        return Axes(self.rect, "", numbers, "", columns_of(self.rect), self.rows)

    def frame(self, numbers: Numbers = float, header: bool = True) -> Any:
        """A DataFrame. The first row has the names of its columns, unless `header` is False: then they are the letters."""
        import pandas

        letters = columns_of(self.rect)
        head, rows = (self.rows[0], self.rows[1:]) if header else ([None] * len(letters), self.rows)
        names = [letter if name is None else as_numbers(name, numbers) for name, letter in zip(head, letters)]
        return pandas.DataFrame([[as_numbers(value, numbers) for value in row] for row in rows], columns=names)


class Table(Answer):
    """What a result would be for each value of an input, or of two: rows of x and entries, below a row of ys.

    `result` and `inputs` are the cells, `labels` what is beside them, `heads` the values of each input, and `rows` the entries alone.
    """

    def __init__(self, result: str, inputs: Sequence[str], labels: Mapping[str, str], rows: Sequence[Sequence[Value]]) -> None:
        super().__init__([list(row) for row in rows])
        self.result = result
        self.inputs = list(inputs)
        self.labels = dict(labels)
        below = self[1:] if len(inputs) == 2 else self[:]
        self.heads = [[row[0] for row in below], *([self[0][1:]] if len(inputs) == 2 else [])]
        self.rows = [row[1:] for row in below]

    def axes(self) -> Axes:
        names = [self.labels.get(it, it) for it in (self.result, *self.inputs)]
        across, columns = (names[2], self.heads[1]) if len(self.inputs) == 2 else ("", [names[0]])
        asked = " and ".join(f"{self.labels.get(it, it)} ({it})" for it in self.inputs)
        return Axes(f"{names[0]} ({self.result}) by {asked}", names[1], self.heads[0], across, columns, self.rows)

    def drawn(self) -> Markup:
        """A list and a curve, or a heat map and curves."""
        result, *inputs = (Label(cell, self.labels.get(cell, "")) for cell in (self.result, *self.inputs))
        return table_html(self, result, *inputs)

    def _repr_html_(self) -> str:
        return fragment(self.drawn())


@dataclass(frozen=True)
class Difference:
    """A cell whose values under two scenarios differ; `by` is None unless both are numbers."""

    address: str
    before: Value
    after: Value
    by: Value


class Comparison(Answer):
    """The cells of `rect` that differ between the scenarios `before` and `after`, as `Difference`s; `labels` are what is beside them."""

    def __init__(self, before: str, after: str, rect: str, labels: Mapping[str, str], differences: Sequence[Difference]) -> None:
        super().__init__(differences)
        self.before, self.after, self.rect = before, after, rect
        self.labels = dict(labels)
        self.cells = [it.address for it in differences]
        self.rows = [[it.before, it.after, it.by] for it in differences]

    def axes(self) -> Axes:
        heads = [self.before, self.after, "difference"]
        return Axes(f"{self.after} beside {self.before}", "", named(self.cells, self.labels), "", heads, self.rows)

    def drawn(self) -> Markup:
        """Both values, the difference, its percent and a bar."""
        return comparison_html([[it.address, it.before, it.after, it.by] for it in self], self.before, self.after, labels=self.labels)

    def _repr_html_(self) -> str:
        return fragment(self.drawn())


@dataclass(frozen=True)
class Change:
    """A cell that shows something else than the session was last shown; `kind` is N, T, L, E or -."""

    address: str
    kind: str
    value: Value


class Changes(Answer):
    """What has changed since a session last looked, as `Change`s."""

    def __init__(self, changes: Sequence[Change]) -> None:
        super().__init__(changes)
        self.cells = [it.address for it in changes]
        self.rows = [[it.value] for it in changes]

    def axes(self) -> Axes:
        return Axes("changes", "", self.cells, "", ["value"], self.rows)


class Scenarios(Answer):
    """The values of some cells under several scenarios, side by side: a row for each cell. `names` are the scenarios."""

    def __init__(self, cells: Sequence[str], names: Sequence[str], labels: Mapping[str, str], rows: Sequence[Sequence[Value]]) -> None:
        super().__init__([list(row) for row in rows])
        self.cells, self.names = list(cells), list(names)
        self.labels = dict(labels)
        self.rows = [*self]

    def axes(self) -> Axes:
        return Axes("scenarios", "", named(self.cells, self.labels), "", self.names, self.rows)


@dataclass(frozen=True)
class Effect:
    """What a result is with an input lower and higher by so many percent, and by how much these two differ."""

    address: str
    value: Value
    low: Value
    high: Value
    spread: Value


class Sensitivity(Answer):
    """What moves `result`, as `Effect`s, the greatest spread first. `by` is the percentage, and `labels` are what is beside the cells."""

    def __init__(self, result: str, by: Value, labels: Mapping[str, str], effects: Sequence[Effect]) -> None:
        super().__init__(effects)
        self.result, self.by = result, by
        self.labels = dict(labels)
        self.cells = [it.address for it in effects]
        self.rows = [[it.value, it.low, it.high, it.spread] for it in effects]

    def axes(self) -> Axes:
        name = self.labels.get(self.result, self.result)
        by = shown(self.by)
        heads = ["value", f"{name} at -{by}%", f"{name} at +{by}%", "spread"]
        return Axes(f"{name} ({self.result}), each input {by}% lower and higher", "", named(self.cells, self.labels), "", heads, self.rows)


def named(cells: Sequence[str], labels: Mapping[str, str]) -> list[Value]:
    """The cells with what is beside them; by the address alone where two have the same.

    >>> named(["B1", "B2", "B3"], {"B1": "price", "B2": "fee", "B3": "fee"})
    ['price', 'B2', 'B3']
    """
    names = [labels.get(it, it) for it in cells]
    counts = Counter(names)
    return [name if counts[name] == 1 else cell for name, cell in zip(names, cells)]
