"""What a formula reads."""

from __future__ import annotations

import re
from collections.abc import Callable, Iterator

from .addresses import grid_of

TEXT = re.compile(r'"[^"]*"')
REFERENCE = re.compile(r"\[\.\$?([A-Za-z]{1,3})\$?([0-9]+)(?::\.\$?([A-Za-z]{1,3})\$?([0-9]+))?\]")


def references(formula: str) -> list[str]:
    """The cells and rectangles that stand in a formula.

    >>> references('=SUM([.$B$1:.B4])*[.C1]&"[.D1]"')
    ['B1:B4', 'C1']
    """
    found = REFERENCE.finditer(TEXT.sub("", formula))
    return [f"{it[1]}{it[2]}:{it[3]}{it[4]}" if it[3] else f"{it[1]}{it[2]}" for it in found]


def inputs_of(result: str, content_of: Callable[[str], str]) -> Iterator[str]:
    """The cells without a formula on which a result rests, in the order in which they are met."""
    seen = {result}
    wait = [result]
    while wait:
        cell = wait.pop(0)
        content = content_of(cell)
        if not content.startswith("="):
            yield cell
            continue
        cells = [it for rect in references(content) for row in grid_of(rect) for it in row]
        new = [it for it in dict.fromkeys(cells) if it not in seen]
        seen.update(new)
        wait += new
