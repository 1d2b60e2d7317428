"""Rows of values, from whatever has some: lists, arrays, generators, DataFrames, Series."""

from __future__ import annotations

from collections.abc import Iterable, Iterator, Mapping, Sequence
from typing import Any


def rows_of(data: Any, header: bool = True, index: bool = False) -> list[Sequence[Any]]:
    """The rows. A flat list is one row; a Series is a column. Of pandas also the names of the columns, and the index if it is wanted.

    >>> rows_of([1, 2]), rows_of([[1], [2]])
    ([[1, 2]], [[1], [2]])
    """
    if hasattr(data, "to_frame") or hasattr(data, "notna"):
        return list(rows_of_frame(data, header, index))
    if isinstance(data, (str, Mapping)) or not isinstance(data, Iterable):
        raise TypeError(f"rows of values are a list of lists, a flat list or a DataFrame, and this is of type {type(data).__name__}")
    rows = list(data)
    if rows and not any(is_row(row) for row in rows):
        return [rows]
    for number, row in enumerate(rows, 1):
        if not is_row(row):
            raise TypeError(f"row {number} is no list of values: {row!r}")
    return [row if isinstance(row, Sequence) else list(row) for row in rows]


def is_row(value: Any) -> bool:
    return isinstance(value, Iterable) and not isinstance(value, str)


def rows_of_frame(data: Any, header: bool, index: bool) -> Iterator[Sequence[Any]]:
    """The rows of a DataFrame, a Series or an Index, with None for each missing value: NaN, NA, NaT."""
    if not hasattr(data, "columns"):
        header = header and data.name is not None
        data = data.to_frame() if index or hasattr(data, "iloc") else data.to_frame(index=False)
    if index:
        data = data.reset_index()
    if header:
        yield list(data.columns)
    values, are_missing = data.astype(object).to_numpy(), data.isna().to_numpy()
    for row, missing in zip(values, are_missing):
        yield [None if is_none else value for value, is_none in zip(row, missing)]


def fitted(value: Any, columns: int, rows: int) -> list[Sequence[Any]]:
    """The rows of values that fill a rectangle: one value for all its cells, a flat list along a column or a row, or rows.

    >>> fitted(0, 2, 1), fitted([1, 2], 1, 2), fitted([[1], [2]], 1, 2)
    ([[0, 0]], [[1], [2]], [[1], [2]])
    """
    if value is None or not is_row(value):
        return [[value] * columns for _ in range(rows)]
    found = rows_of(value)
    if columns == 1 and rows > 1 and len(found) == 1:
        found = [[it] for it in found[0]]
    if len(found) != rows or any(len(row) != columns for row in found):
        shape = " and ".join(sorted({str(len(row)) for row in found}))
        raise ValueError(f"{rows} rows of {columns} are to be filled, and {len(found)} of {shape or 'none'} are given")
    return found
