"""Why a value of whatif isn't the one that a spreadsheet has saved, where that can be told."""

import re
from dataclasses import dataclass
from fractions import Fraction

from .carry import Carried, Carrier
from .constants import FLOAT
from .cures import Values
from .errors import references
from .formula import Kind, tokens_of
from .grid import cells_of
from .loans import LOANS
from .settings import PATTERN, SEARCHES
from .sheet import Address, Rectangle

NOISE = Fraction(1, 10**13)
"""What is left of floating numbers that cancel out is at most this part of them."""

SORTED = re.compile(r"(?i)\b(?:[VH]LOOKUP|MATCH|LOOKUP)\s*\(")
JOINED = re.compile(r"[=<>]")
MOST_CELLS_LOOKED_AT = 10_000


@dataclass(frozen=True)
class Audited:
    """What is known of all formula cells when they have been compared."""

    carrier: Carrier
    differing: set[Address]
    values: Values


def cause_of(cell: Carried, kind: str, shown: str, saved: str, audited: Audited) -> str:
    formula = cell.cell.formula or ""
    if not cell.cell.has_value:
        return "no saved value"
    if shown == "#CIRC!":
        return "iteration: a circle" if audited.carrier.document.settings.has_iterations else "a circle"
    if kind == "N" and set(audited.carrier.rewritten.get(cell.place, "").split(", ")) & set(LOANS):
        return "a loan in rounded steps, which is another model than the closed form"
    earlier = reads_differing(cell, audited)
    if earlier is not None:
        return f"it reads {earlier}, which differs"
    if kind == "E":
        return error_here(shown, cell, audited)
    if cell.cell.is_error:
        return "an error in the file alone"
    return noise(cell, kind, shown, saved, audited) or of_searches(formula, audited) or of_texts(formula, audited) or as_shown(kind, audited)


def reads_differing(cell: Carried, audited: Audited) -> Address | None:
    """A cell that differs itself and that this one reads."""
    for area in areas_read(cell, audited):
        if area.first == area.last:
            if area.first in audited.differing and area.first != cell.place:
                return area.first
        else:
            found = next((other for other in audited.differing if other in area and other != cell.place), None) if is_small(audited) else None
            if found is not None:
                return found
    return None


def is_small(audited: Audited) -> bool:
    return len(audited.differing) <= MOST_CELLS_LOOKED_AT


def areas_read(cell: Carried, audited: Audited) -> tuple[Rectangle, ...]:
    return references(audited.carrier.formula_at.get(cell.place, ""))


def error_here(error: str, cell: Carried, audited: Audited) -> str:
    if error == "#NUM!":
        return f"#NUM!: the exact number doesn't fit; {round_each_step(cell, audited)}"
    if error == "#NAME?":
        return "a function that whatif lacks"
    if error == "#N/A" and SEARCHES.search(cell.cell.formula or ""):
        return "texts match only where every letter is the same, capitals too"
    if error == "#VALUE!":
        reads_text = any(kind == "T" for at, (kind, _) in audited.values.items() if any(at in area for area in areas_read(cell, audited)))
        if reads_text or '"' in (cell.cell.formula or ""):
            return "a text where a number is needed: texts are never numbers here"
        return "several cells for one value" if ":" in audited.carrier.formula_at.get(cell.place, "") else "an error in whatif only"
    return "an error in whatif only"


def round_each_step(cell: Carried, audited: Audited) -> str:
    """The cure for a column whose numbers grow too long: from which cell on, and how."""
    formula = audited.carrier.formula_at.get(cell.place, "")
    likeness = re.sub("[0-9]+", "0", formula)
    top = cell.place
    while top.row > 1 and re.sub("[0-9]+", "0", audited.carrier.formula_at.get(Address(top.row - 1, top.column), "")) == likeness:
        top = Address(top.row - 1, top.column)
    if top == cell.place:
        return "round what it reads, or the power in steps: docs/TROUBLE.md"
    return f"round each step from {top} on: =ROUND({audited.carrier.formula_at[top].removeprefix('=')[:80]};12)"


def noise(cell: Carried, kind: str, shown: str, saved: str, audited: Audited) -> str:
    """Two numbers that differ by what is left of floating ones."""
    if kind != "N" or FLOAT.fullmatch(saved) is None:
        return ""
    largest = max((abs(number) for number in numbers_read(cell, audited)), default=Fraction(0))
    is_noise = abs(Fraction(shown) - Fraction(saved)) <= NOISE * max(largest, abs(Fraction(saved)))
    return "floating noise beyond 15 digits" if is_noise else ""


def as_shown(kind: str, audited: Audited) -> str:
    return "precision as shown" if kind == "N" and audited.carrier.document.settings.is_precision_as_shown else ""


def numbers_read(cell: Carried, audited: Audited) -> list[Fraction]:
    formula = audited.carrier.formula_at.get(cell.place, "")
    tokens = tokens_of(formula, 1).tokens if formula else []
    found = [Fraction(token.text) for token in tokens if token.kind is Kind.NUMBER]
    for area in areas_read(cell, audited):
        if area.cells() <= MOST_CELLS_LOOKED_AT:
            known = (audited.values.get(at, ("-", "")) for at in cells_of(area))
            found += [Fraction(text) for kind, text in known if kind == "N"]
    return found


def of_searches(formula: str, audited: Audited) -> str:
    settings = audited.carrier.document.settings
    if not SEARCHES.search(formula):
        return ""
    if settings.has_patterns and any(PATTERN.search(text) for text in re.findall(r'"[^"]*"', formula)):
        return "wildcards"
    if not settings.is_whole_cell and re.search(r"(?i)\b(?:COUNT|SUM|AVERAGE)IF", formula):
        return "a match of whole cells"
    if SORTED.search(formula) and not re.search(r"(?i)(?:;\s*(?:0|FALSE\(\))?\s*\))", formula):
        return "a list that isn't sorted, or the case of texts"
    return "the case of texts, or a blank that meets the criterion"


def of_texts(formula: str, audited: Audited) -> str:
    settings = audited.carrier.document.settings
    return "the case of texts" if not settings.is_case_sensitive and JOINED.search(formula.removeprefix("of:")[1:]) else ""
