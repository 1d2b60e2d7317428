"""A part of the sheet with its letters and row numbers; records of any other command."""

from __future__ import annotations

from collections.abc import Collection, Mapping, Sequence
from typing import Any

from .answers import CORNER, letters_behind
from .cells import MOST_DRAWN, column_head, download, entry, folded, row
from .markup import Markup, joined, tag
from .values import shown


def sheet_html(
    records: Sequence[Sequence[Any]],
    area: str,
    *,
    formulas: Mapping[str, str] | None = None,
    texts: Collection[str] = (),
    caption: str = "",
    places: int | None = None,
) -> Markup:
    """What `show` and `export` have answered of an area; `formulas` has those of its cells, and `texts` the cells whose value is a text.

    sheet_html([["bill", "92"]], "A4:B4", formulas={"B4": "=[.B1]*[.B2]"})
    """
    corner = CORNER.match(area)
    letters, first = (corner[1], int(corner[2])) if corner else ("A", 1)
    columns = [letters_behind(letters, j) for j in range(max(map(len, records), default=0))]
    known = formulas or {}
    rows = []
    for i, record in enumerate(records[:MOST_DRAWN]):
        cells = []
        for column, value in zip(columns, record):
            address = f"{column}{first + i}"
            cells.append(sheet_cell(shown(value), known.get(address, ""), address in texts, places))
        rows.append(row(tag("th", str(first + i), scope="row", class_="soft"), *cells))
    heads = [row(tag("td"), *(column_head(column, class_="soft") for column in columns))]
    parts = [folded(caption or area.upper() + ("; formulas are shaded" if known else ""), heads, rows, "grid")]
    if len(records) > MOST_DRAWN:
        texts_of = [[shown(value) for value in record] for record in records]
        parts.append(download(texts_of, f"all {len(records):,} rows as CSV", "cells.csv"))
    return joined(parts)


def sheet_cell(text: str, formula: str, is_text: bool, places: int | None) -> Markup:
    title = f"{formula} \u2192 " if formula else ""
    if is_text:
        return tag("td", text, class_="formula" if formula else None, title=title or None)
    return entry(text, places, classes="formula" if formula else "", title=title)


def records_html(records: Sequence[Sequence[Any]], caption: str) -> Markup:
    """Records of whatever command."""
    rows = [row(*(entry(shown(value)) for value in record)) for record in records[:MOST_DRAWN]]
    return folded(caption, [], rows, "grid")
