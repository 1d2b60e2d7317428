"""A session: a person's view of the workbook, and questions what would be if."""

from __future__ import annotations

from collections.abc import Callable, Iterator, Mapping, Sequence
from contextlib import contextmanager
from fractions import Fraction
from typing import Any, Optional, Union, overload

from .addresses import grid_of
from .answers import Comparison, Difference, Effect, Scenarios, Sensitivity, Table
from .references import inputs_of
from .scenario import MaybeScenario, Trial, name_of, told
from .sheet import Sheet
from .values import Value, read

Several = Union[list[str], tuple[str, ...]]


class Session(Sheet):
    """A person's view of the workbook: edits, looks and what-ifs, and the scenario in use.

    >>> from whatif import Workbook
    >>> with Workbook() as book:
    ...     ana, bo = book.session("ana"), book.session("bo")
    ...     ana["A1"] = 1
    ...     bo.changes()
    [Change(address='A1', kind='N', value=Fraction(1, 1))]
    """

    # What if

    def table(self, result: str, cell: str, xs: Any, second: Optional[str] = None, ys: Any = None) -> Table:
        """What `result` would show for each value of `cell`, and of `second`: rows of x and entries, below a row of ys.

        The values are a column and a row of cells, or two lists of values.

        book.table("B4", "B1", "D2:D9")
        book.table("B4", "B1", [250, 400], "B2", [0.32, 0.28]).frame()
        """
        if (second is None) != (ys is None):
            raise ValueError("a second input and its values go together")
        inputs = [cell] if second is None else [cell, second]
        are_cells = [isinstance(values, str) for values in (xs, ys) if values is not None]
        if any(are_cells) and not all(are_cells):
            raise TypeError("the values are two rectangles or two lists")
        if all(are_cells):
            behind = f" {second} {ys}" if second else ""
            rows = [[read(text) for text in row] for row in self.command(f"table {result} {cell} {xs}{behind}")]
        else:
            rows = self._entries(result, cell, list(xs), second, list(ys or []))
        return Table(result, inputs, self.labels([result, *inputs]), rows)

    def _entries(self, result: str, cell: str, xs: list[Any], second: Optional[str], ys: list[Any]) -> list[list[Value]]:
        value = self._spelling.value
        rows: list[list[Value]] = [[None, *map(value, ys)]] if second else []
        with self._trial() as trial:
            for x in xs:
                cases = [{cell: x, second: y} for y in ys] if second else [{cell: x}]
                rows.append([value(x), *(trial.ask(result, case) for case in cases)])
        return rows

    def _trial(self) -> Trial:
        return Trial(self, self._process, self._spelling)

    @overload
    def what_if(self, result: str, cells: Mapping[str, Any]) -> Value: ...

    @overload
    def what_if(self, result: Several, cells: Mapping[str, Any]) -> list[Value]: ...

    def what_if(self, result: Union[str, Several], cells: Mapping[str, Any]) -> Union[Value, list[Value]]:
        """What a cell would show if these cells had these values, under the scenario in use; or what several cells would.

        book.what_if("B4", {"B1": 400, "B2": 0.28})
        bill, share = book.what_if(["B4", "B5"], {"B1": 400})
        """
        with self._trial() as trial:
            trial.put(cells)
            return trial.show(result) if isinstance(result, str) else [trial.show(it) for it in result]

    def seek(self, result: str, cell: str, goal: Any, low: Any, high: Any, places: int = 2) -> Fraction:
        """Goal seek: the least value of `cell`, to so many places, with which `result` reaches or passes `goal`.

        It is found by halving, so `result` must rise, or fall, all the way from `low` to `high`.

        book.seek("B4", "B1", 100, low=0, high=1000)   # the consumption from which on the bill is 100 or more
        """
        exact = self._spelling.exact
        unit, wanted = Fraction(1, 10**places), exact(goal)
        first, last = -(-exact(low) // unit), exact(high) // unit
        with self._trial() as trial:

            def at(step: int) -> Fraction:
                return trial.ask_number(result, {cell: step * unit})

            start, end = at(first), at(last)
            sign = 1 if start <= end else -1
            if not sign * start <= sign * wanted <= sign * end:
                raise ValueError(f"{result} is {start} at {low} and {end} at {high}: {goal} isn't between")
            if start == wanted:
                return first * unit
            return unit * first_step(first, last, lambda step: sign * at(step) >= sign * wanted)

    def sensitivity(self, result: str, by: Any = 10, inputs: Optional[Sequence[str]] = None) -> Sensitivity:
        """What `result` is with each input so many percent lower and higher, the input that moves it most first.

        The inputs are all cells with a number on which the result rests, or those that are named.

        book.sensitivity("B4", by=10).frame()
        """
        part = self._spelling.exact(by) / 100
        effects = []
        for cell in inputs or list(inputs_of(result, self.formula)):
            value = read(self.show(cell)[0][0])
            if not isinstance(value, Fraction):
                if inputs:
                    raise ValueError(f"{cell} shows {value}: no number")
                continue
            low, high = (self.what_if(result, {cell: value * times}) for times in (1 - part, 1 + part))
            spread = high - low if isinstance(low, Fraction) and isinstance(high, Fraction) else None
            effects.append(Effect(cell, value, low, high, spread))
        effects.sort(key=lambda it: -abs(it.spread) if isinstance(it.spread, Fraction) else 0)
        return Sensitivity(result, 100 * part, self.labels([result, *(it.address for it in effects)]), effects)

    # Scenarios

    def use(self, scenario: MaybeScenario) -> None:
        """Looks are under that scenario from now on; None is the sheet as it stands."""
        self.command(f"use {name_of(scenario)}")

    @contextmanager
    def using(self, scenario: MaybeScenario) -> Iterator[Session]:
        """Looks under a scenario for the time of a `with`.

        with book.using(winter): book.value("B4")
        """
        before = self.scenario_in_use
        self.use(scenario)
        try:
            yield self
        except KeyboardInterrupt:
            self._process.later(self.name, f"use {before or ''}")
            raise
        except BaseException:
            self.use(before)
            raise
        self.use(before)

    def compare(self, before: MaybeScenario, after: MaybeScenario, rect: str) -> Comparison:
        """The cells whose values under two scenarios differ; None is the sheet as it stands.

        book.compare(None, winter, "B1:B4").frame()
        """
        names = name_of(before), name_of(after)
        records = self.command(f"compare {names[0] or '-'} {names[1] or '-'} {rect}")
        differences = [Difference(at, read(one), read(two), read(by)) for at, one, two, by in records]
        labels = self.labels([it.address for it in differences])
        return Comparison(told(names[0]), told(names[1]), rect, labels, differences)

    def scenarios(self, rect: str, names: Optional[Sequence[MaybeScenario]] = None) -> Scenarios:
        """The values of a rectangle under several scenarios, side by side; without names, the sheet and all that were made.

        book.scenarios("B1:B4").frame()
        """
        asked = [None, *self._process.journal.scenarios] if names is None else names
        cells = [cell for row in grid_of(rect) for cell in row]
        columns = []
        for name in asked:
            known = self._reader.look(name_of(name) or None)
            columns.append([known.get(cell) for cell in cells])
        rows = [list(row) for row in zip(*columns)] if columns else [[] for _ in cells]
        return Scenarios(cells, [told(name_of(it)) for it in asked], self.labels(cells), rows)


def first_step(low: int, high: int, holds: Callable[[int], bool]) -> int:
    """The least number above `low` from which on something holds; it doesn't at `low`, and it does at `high`.

    >>> first_step(0, 100, lambda number: number * number >= 50)
    8
    """
    while high - low > 1:
        middle = (low + high) // 2
        low, high = (low, middle) if holds(middle) else (middle, high)
    return high
