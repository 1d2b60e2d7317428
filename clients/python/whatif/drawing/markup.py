"""HTML and SVG as text, whose contents and attributes are escaped."""

from __future__ import annotations

import html
import re
from collections.abc import Iterable

UNSEEN = re.compile("[\x00-\x08\x0b\x0c\x0e-\x1f\x7f-\x9f\u200e\u200f\u202a-\u202e\u2066-\u2069\ufffe\uffff]")
"""Characters that no page may have, or that turn the direction of the text around them."""


class Markup(str):
    """Text that is markup, and isn't escaped again."""

    __slots__ = ()


NOTHING = Markup("")


def escaped(text: str) -> Markup:
    """A text as it is shown, whatever is in it.

    >>> escaped('<b> & "')
    '&lt;b&gt; &amp; &quot;'
    """
    return text if isinstance(text, Markup) else Markup(html.escape(UNSEEN.sub("\ufffd", text)))


def attribute(name: str, value: object) -> str:
    name = name.rstrip("_").replace("_", "-")
    return f' {name}="{escaped(name if value is True else str(value))}"'


def tag(name: str, *contents: str, **attributes: object) -> Markup:
    """An element. A None or False attribute is left out, and `class_` is `class`.

    >>> tag("td", "1 < 2", class_="n", title=None)
    '<td class="n">1 &lt; 2</td>'
    """
    inside = "".join(map(escaped, contents))
    given = (attribute(key, value) for key, value in attributes.items() if value is not None and value is not False)
    return Markup(f"<{name}{''.join(given)}>{inside}</{name}>")


def plain(text: str) -> str:
    """The text of markup, without its tags.

    >>> plain(tag("b", "1 < 2", tag("small", "B1"))), plain("<b>")
    ('1 < 2B1', '<b>')
    """
    return html.unescape(re.sub("<[^>]*>", "", text)) if isinstance(text, Markup) else text


def joined(parts: Iterable[str]) -> Markup:
    return Markup("".join(map(escaped, parts)))


def separated(parts: Iterable[str], by: str) -> Markup:
    return Markup(escaped(by).join(map(escaped, parts)))


def decimal(number: float) -> str:
    """A coordinate at two decimals, without zeros at its end."""
    text = f"{number:.2f}".rstrip("0").rstrip(".")
    return "0" if text in ("-0", "") else text
