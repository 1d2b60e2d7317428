"""Cells and rows of tables."""

from __future__ import annotations

import re
from collections.abc import Iterable, Sequence
from fractions import Fraction
from urllib.parse import quote

from .markup import Markup, joined, plain, tag
from .values import drawn, drawn_alone, exact, is_error

QUOTED = re.compile('[,"\r\n]')
PLAIN = re.compile("[-0-9A-Za-z,./]*")
"""What stands in an address as it is."""

MOST_ROWS = 40
MOST_DRAWN = 440
"""So many rows are shown at once, and drawn at all."""


def entry(text: str, places: int | None = None, plus: bool = False, classes: str = "", title: str = "") -> Markup:
    """A cell with a shown text. A number stands at the right, rounded, with the exact one as its title."""
    number = exact(text)
    if number is None:
        return tag("td", text, class_=f"{'e ' if is_error(text) else ''}{classes}".strip() or None, title=title or None)
    return tag("td", in_figures(number, places, plus), class_=f"n {classes}".strip(), title=title + text)


def in_figures(number: Fraction, places: int | None = None, plus: bool = False) -> str:
    return (drawn_alone(number, plus) if places is None else drawn(number, places, plus)).text


def figures(text: str, places: int | None = None) -> str:
    """A shown text for a sentence, with a sign where its number is rounded."""
    number = exact(text)
    if number is None:
        return text
    return (drawn_alone(number) if places is None else drawn(number, places)).marked


def head(text: str, places: int | None = None, classes: str = "", scope: str = "row") -> Markup:
    """A heading with a shown text, drawn as an entry is."""
    number = exact(text)
    if number is None:
        return tag("th", text, scope=scope, class_=classes or None)
    return tag("th", in_figures(number, places), scope=scope, class_=f"n {classes}".strip(), title=text)


def column_head(*contents: str, **attributes: object) -> Markup:
    return tag("th", *contents, scope="col", **attributes)


def row(*cells: Markup) -> Markup:
    return tag("tr", *cells)


def table(caption: str, heads: list[Markup], rows: list[Markup], classes: str = "") -> Markup:
    """A table in a box of its own, which scrolls where the page is narrow."""
    parts = [tag("caption", caption), tag("thead", *heads), tag("tbody", *rows)]
    return tag("div", tag("table", *parts, class_=classes or None), class_="wide", tabindex="0", role="region", aria_label=plain(caption))


def folded(caption: str, heads: list[Markup], rows: list[Markup], classes: str = "") -> Markup:
    """A table; what is behind its fortieth row is shown when it is asked for."""
    shown_rows, rest = rows[:MOST_ROWS], rows[MOST_ROWS:]
    first = table(caption, heads, shown_rows, classes)
    if not rest:
        return first
    summary = tag("summary", f"{len(rest):,} more rows")
    return joined([first, tag("details", summary, table(joined([caption, ", the rest"]), heads, rest, classes))])


def note(*contents: str, classes: str = "soft") -> Markup:
    return tag("p", *contents, class_=classes)


def csv_of(rows: Iterable[Sequence[str]]) -> str:
    """Rows as CSV, with quotes where they are needed."""
    return "".join(",".join(map(csv_field, line)) + "\r\n" for line in rows)


def csv_field(text: str) -> str:
    return '"' + text.replace('"', '""') + '"' if QUOTED.search(text) else text


def download(rows: Iterable[Sequence[str]], words: str, file_name: str) -> Markup:
    """A link to rows that are in the page, as a file of CSV."""
    data = "%0D%0A".join(line if PLAIN.fullmatch(line) else quote(line, safe=",/-") for line in csv_of(rows).split("\r\n"))
    return tag("p", tag("a", words, href=f"data:text/csv;charset=utf-8,{data}", download=file_name))
