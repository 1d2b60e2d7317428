"""Addresses of cells: letters of a column, and a row."""

from __future__ import annotations

import re

ADDRESS = re.compile(r"([A-Za-z]{1,3})([1-9][0-9]{0,6})")


def column_name(column: int) -> str:
    """The letters of a column, counted from 1.

    >>> column_name(1), column_name(28), column_name(16384)
    ('A', 'AB', 'XFD')
    """
    name = ""
    while column:
        column, letter = divmod(column - 1, 26)
        name = chr(ord("A") + letter) + name
    return name


def place_of(address: str) -> tuple[int, int]:
    """Column and row of an address, counted from 1.

    >>> place_of("B7"), place_of("xfd1")
    ((2, 7), (16384, 1))
    """
    found = ADDRESS.fullmatch(address)
    if not found:
        raise ValueError(f"{address!r} is no address of a cell")
    column = 0
    for letter in found[1].upper():
        column = 26 * column + ord(letter) - ord("A") + 1
    return column, int(found[2])


def address_of(column: int, row: int) -> str:
    return f"{column_name(column)}{row}"


def corners_of(rect: str) -> tuple[int, int, int, int]:
    """The first column and row of a rectangle, and the last ones.

    >>> corners_of("B2:A1"), corners_of("C3")
    ((1, 1, 2, 2), (3, 3, 3, 3))
    """
    first, _, last = rect.partition(":")
    (left, top), (right, bottom) = place_of(first), place_of(last or first)
    return min(left, right), min(top, bottom), max(left, right), max(top, bottom)


def grid_of(rect: str) -> list[list[str]]:
    """The addresses of a rectangle, row by row.

    >>> grid_of("B2:A1")
    [['A1', 'B1'], ['A2', 'B2']]
    """
    left, top, right, bottom = corners_of(rect)
    names = [column_name(column) for column in range(left, right + 1)]
    return [[f"{name}{row}" for name in names] for row in range(top, bottom + 1)]


def rect_of(addresses: list[str]) -> str:
    """The least rectangle that has these cells.

    >>> rect_of(["B7", "D2"])
    'B2:D7'
    """
    columns, rows = zip(*map(place_of, addresses))
    return f"{address_of(min(columns), min(rows))}:{address_of(max(columns), max(rows))}"


def columns_of(rect: str) -> list[str]:
    """The names of the columns of a rectangle."""
    left, _, right, _ = corners_of(rect)
    return [column_name(column) for column in range(left, right + 1)]
