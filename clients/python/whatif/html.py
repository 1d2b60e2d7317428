"""A table in HTML: plain, with heads that a screen reader finds, and every text escaped."""

from __future__ import annotations

from collections.abc import Sequence
from fractions import Fraction
from html import escape

from .values import Value, shown

LONGEST = 18
DIGITS = 10


def html_table(caption: str, head: Sequence[Value], rows: Sequence[tuple[Value, Sequence[Value]]]) -> str:
    """A table with a head, and rows of a name and values.

    >>> print(html_table("a < b", ["", "B4"], [("now", [Fraction(1, 2)])]))
    <table><caption>a &lt; b</caption>
    <thead><tr><td></td><th scope="col">B4</th></tr></thead>
    <tbody>
    <tr><th scope="row">now</th><td style="text-align: right">0.5</td></tr>
    </tbody></table>
    """
    heads = "".join(f'<th scope="col">{text_of(it)}</th>' if it not in (None, "") else "<td></td>" for it in head)
    lines = "".join(f'<tr><th scope="row">{text_of(name)}</th>{"".join(map(cell, values))}</tr>\n' for name, values in rows)
    return f"<table><caption>{escape(caption)}</caption>\n<thead><tr>{heads}</tr></thead>\n<tbody>\n{lines}</tbody></table>"


def cell(value: Value) -> str:
    style = ' style="text-align: right"' if isinstance(value, Fraction) else ""
    return f"<td{style}>{text_of(value)}</td>"


def text_of(value: Value) -> str:
    """A value to be read: a long number is rounded and says so, and its exact value is there behind it.

    >>> text_of(Fraction(17, 50)), text_of(Fraction(2, 3))
    ('0.34', '2/3')
    >>> text_of(Fraction(10**20, 3))
    '<span title="100000000000000000000/3">≈ 3.333333333e+19</span>'
    """
    text = shown(value)
    if isinstance(value, Fraction) and len(text) > LONGEST:
        return f'<span title="{text}">≈ {float(value):.{DIGITS}g}</span>'
    return escape(text)
