"""whatif's values beside those that a spreadsheet has saved with its formulas."""

from dataclasses import dataclass, replace
from fractions import Fraction
from functools import cached_property

from .carry import Carried, Carrier
from .causes import Audited, cause_of
from .constants import FLOAT, days
from .cures import Values
from .document import NUMBERS
from .errors import ASK, values_in
from .pieces import CannotGoOver
from .program import run

NUMBERED_ERROR = "Err:"
"""LibreOffice numbers some errors, and whatif shows one by its name."""

NEAR = Fraction(1, 10**12)
"""Two numbers agree where their difference is at most this part of the larger one."""


@dataclass(frozen=True)
class Compared:
    """A formula cell, what whatif shows in it, what is saved, and why they differ where that is known."""

    cell: Carried
    shown: str
    kind: str
    saved: str
    cause: str = ""

    @property
    def is_saved(self) -> bool:
        """Whether a value is saved; LibreOffice saves none for an empty text."""
        return self.cell.cell.has_value or self.shown == ""

    @cached_property
    def agrees(self) -> bool:
        """Whether the values are the same; a truth value may be saved as 1 or 0."""
        if not self.cell.cell.has_value:
            return self.shown == ""
        if self.kind == "N" and self.shown == self.saved and self.cell.cell.kind == "float":
            return True
        if self.kind == "N" and self.cell.cell.kind in (*NUMBERS, "date", "time"):
            return is_number(self.saved) and near(Fraction(self.shown), Fraction(self.saved))
        if self.kind == "E" and self.cell.cell.is_error and self.saved.startswith(NUMBERED_ERROR):
            return True
        if self.kind == "L" and self.cell.cell.kind in NUMBERS:
            return self.saved == {"TRUE": "1", "FALSE": "0"}[self.shown]
        return self.shown == self.saved and self.kind == kind_of(self.cell, self.saved)

    def record(self) -> str:
        formula = self.cell.cell.formula or ""
        parts = (f"{self.cell.sheet}.{self.cell.address}", formula.removeprefix("of:"), self.shown, self.saved, self.cause)
        return ",".join('"' + part.replace('"', '""') + '"' for part in parts) + "\n"


def is_number(saved: str) -> bool:
    return FLOAT.fullmatch(saved) is not None or saved.replace("/", "", 1).lstrip("-").isdigit()


def near(shown: Fraction, saved: Fraction) -> bool:
    return abs(shown - saved) <= NEAR * max(abs(shown), abs(saved))


def kind_of(cell: Carried, saved: str) -> str:
    """The kind that a saved value has here; some programs save an error as a text."""
    if cell.cell.is_error or saved.startswith("#") and saved == cell.cell.shown:
        return "E"
    return {"boolean": "L", "string": "T"}.get(cell.cell.kind, "N")


def audit(carrier: Carrier, script: str | None = None) -> list[Compared]:
    """Every formula cell but those whose values were put in, since those agree by themselves; the script may be there already."""
    answer = run((carrier.script() if script is None else script).encode() + ASK)
    shown = values_in(answer.replies[-1])
    formulas = (cell for cell in carrier.cells() if cell.cell.formula is not None and cell.place not in carrier.frozen)
    compared = [saved_beside(cell, shown, carrier) for cell in formulas]
    differing = {one.cell.place for one in compared if not one.agrees}
    audited = Audited(carrier, differing, shown)
    return [one if one.agrees else replace(one, cause=cause_of(one.cell, one.kind, one.shown, one.saved, audited)) for one in compared]


def saved_beside(cell: Carried, shown: Values, carrier: Carrier) -> Compared:
    kind, text = shown.get(cell.place, ("-", ""))
    saved = cell.cell.value
    if cell.cell.kind in ("date", "time"):
        try:
            saved = days(cell.cell, carrier.document.start_of_days)
        except CannotGoOver:
            pass
    return Compared(cell, text, kind, saved.upper() if cell.cell.kind == "boolean" else saved)
