"""The rows of a sweep, from a DataFrame or from a list of dicts."""

from __future__ import annotations

import csv
import io
from collections.abc import Sequence
from dataclasses import dataclass
from typing import Any

from ..spelling import Spelling, is_truth_value
from .head import WrongSweep, is_address

KINDS = {"N": "numbers", "T": "texts", "L": "truth values"}


@dataclass(frozen=True)
class Inputs:
    """A frame as lines of sets, without labels; what it was, and the kind of each input."""

    frame: Any
    labels: Sequence[str]
    kinds: dict[str, str]
    lines: list[str]

    @staticmethod
    def of(frame: Any, labels: Sequence[str], spelling: Spelling) -> Inputs:
        names = [it for it in names_of(frame, labels) if it not in labels]
        columns = {name.upper(): values_of(frame, name) for name in names}
        if len(columns) < len(names):
            raise WrongSweep("an address stands twice in the frame")
        kinds = {name: kind_of(name, values) for name, values in columns.items()}
        fields = [[field_of(f"{name}: row {row}", value, spelling) for row, value in enumerate(values)] for name, values in columns.items()]
        out = io.StringIO(newline="")
        csv.writer(out, lineterminator="\n", quoting=csv.QUOTE_ALL).writerows(zip(*fields))
        return Inputs(frame, labels, kinds, out.getvalue().splitlines(keepends=True))

    def answer(self, places: list[int], outputs: Sequence[str], answers: list[list[Any]]) -> Any:
        """The labels and the outputs of these rows, as a DataFrame if the frame was one."""
        if not hasattr(self.frame, "columns"):
            kept = [{name: self.frame[it][name] for name in self.labels} for it in places]
            return [{**row, **dict(zip(outputs, values))} for row, values in zip(kept, answers)]
        import pandas

        found = pandas.DataFrame(answers, columns=list(outputs), index=self.frame.index[places])
        return pandas.concat([self.frame.iloc[places][list(self.labels)], found], axis=1)


def names_of(frame: Any, labels: Sequence[str]) -> list[str]:
    """The names of the columns; all but the labels are addresses."""
    names = list(frame.columns) if hasattr(frame, "columns") else list(frame[0]) if frame else []
    for name in labels:
        if name not in names:
            raise WrongSweep(f"{name!r} is no column of the frame")
    for name in names:
        if name not in labels and not (isinstance(name, str) and is_address(name)):
            raise WrongSweep(f"the column {name!r} is no address; if it is a label, labels=[{name!r}]")
    if all(name in labels for name in names):
        raise WrongSweep("the frame has no column with an address as its name")
    return names


def values_of(frame: Any, name: str) -> list[Any]:
    """The values of a column; each row has one."""
    if hasattr(frame, "columns"):
        values, missing = frame[name].tolist(), frame[name].isna().tolist()
    else:
        values = [row[name] for row in frame]
        missing = [value is None or (isinstance(value, float) and value != value) for value in values]
    if True in missing:
        raise WrongSweep(f"{name}: row {missing.index(True)} has no value")
    return list(values)


def kind_of(name: str, values: list[Any]) -> str:
    """The kind of all values of a column."""
    kinds = {"T" if isinstance(it, str) else "L" if is_truth_value(it) else "N" for it in values}
    if len(kinds) > 1:
        raise WrongSweep(f"{name}: one kind of values for a column, and this one has {' and '.join(KINDS[it] for it in sorted(kinds))}")
    return kinds.pop() if kinds else "N"


def field_of(place: str, value: Any, spelling: Spelling) -> str:
    """A value as a field of a set."""
    try:
        if not isinstance(value, str):
            return spelling.plain(value)
    except (TypeError, ValueError) as error:
        raise WrongSweep(f"{place}: {error}") from None
    if "\n" in value or "\r" in value:
        raise WrongSweep(f"{place}: a text with a line break: {value[:40]!r}")
    return value
