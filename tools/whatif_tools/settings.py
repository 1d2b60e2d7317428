"""The settings of a spreadsheet's file that change values, as a reader of the script is told them."""

import re
from collections.abc import Iterator

from .document import START_OF_DAYS, Document
from .move import Places

SEARCHES = re.compile(r"(?i)\b(?:COUNTIFS?|SUMIFS?|AVERAGEIFS?|MAXIFS|MINIFS|[VHX]?LOOKUP|X?MATCH)\s*\(")
PATTERN = re.compile(r"[*?]")


def told_settings(document: Document, places: Places) -> Iterator[str]:
    settings = document.settings
    if settings.has_iterations:
        yield "setting: iterations are on in the file; a circle that they resolve shows #CIRC! here"
    if settings.is_precision_as_shown:
        yield "setting: precision as shown is on in the file; here nothing is rounded but by ROUND"
    if document.start_of_days != START_OF_DAYS:
        yield f"setting: days are counted from {document.start_of_days}"
    if searches(places):
        if not settings.is_whole_cell:
            yield "setting: a criterion meets a part of a cell in the file, and whole cells here"
        if settings.has_patterns and has_patterns(places):
            yield "setting: * and ? are wildcards in the file, and themselves here"


def searches(places: Places) -> bool:
    """Whether a formula looks something up or goes by a criterion."""
    return any(SEARCHES.search(cell.formula) for sheet in places.sheets() for cell in sheet.cells.values() if cell.formula is not None)


def has_patterns(places: Places) -> bool:
    """Whether a text has a sign that is a wildcard there."""
    cells = (cell for sheet in places.sheets() for cell in sheet.cells.values())
    return any(PATTERN.search(text) for cell in cells for text in texts_of(cell.formula, cell.kind, cell.value))


def texts_of(formula: str | None, kind: str, value: str) -> list[str]:
    if formula is not None:
        return re.findall(r'"[^"]*"', formula)
    return [value] if kind == "string" else []
