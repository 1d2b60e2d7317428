"""A spreadsheet's cells as a script, and what can't go over."""

import re
from collections.abc import Iterator
from dataclasses import dataclass, field

from .constants import content, put
from .document import Cell, Document, Sheet
from .formula import fault, is_formula
from .helpers import Helpers
from .move import Places
from .pieces import CannotGoOver
from .rewrite import RULES
from .settings import told_settings
from .sheet import Address, column_letters
from .translate import Translator, UnknownFunction

LONGEST_COMMENT = 300
MOST_CELLS = 200_000


@dataclass(frozen=True)
class Note:
    """What didn't go over as it was, and why."""

    sheet: str
    address: Address
    why: str

    def __str__(self) -> str:
        return one_line(f"{self.sheet}.{self.address}: {self.why}")


@dataclass(frozen=True)
class Carried:
    """A cell of the file and its place in the script."""

    sheet: str
    address: Address
    place: Address
    cell: Cell


@dataclass
class Carrier:
    """Makes a script of a sheet and of those that it reads."""

    document: Document
    places: Places
    expands_loans: bool = False
    notes: list[Note] = field(default_factory=list)
    dates: list[Address] = field(default_factory=list)
    frozen: dict[Address, Note] = field(default_factory=dict)
    """The places in the script of formulas whose values are put in instead."""

    left_empty: set[Address] = field(default_factory=set)
    """The places of cells that have neither a formula nor a value here."""

    rewritten: dict[Address, str] = field(default_factory=dict)
    """The places of formulas that are said otherwise, and what they were."""

    formula_at: dict[Address, str] = field(default_factory=dict)
    """The formulas of the script, by their places."""

    helpers: Helpers = field(default_factory=lambda: Helpers(0))

    @classmethod
    def of(cls, document: Document, first: Sheet, takes_all: bool = False, expands_loans: bool = False) -> "Carrier":
        places = Places.of(document, first, takes_all)
        count = sum(len(sheet.cells) for sheet in places.sheets())
        if count > MOST_CELLS:
            raise CannotGoOver(f"{count} cells, and whatif has room for {MOST_CELLS}")
        return cls(document, places, expands_loans, helpers=Helpers(places.width))

    def script(self) -> str:
        return "".join(self.lines())

    def lines(self) -> Iterator[str]:
        self.notes, self.dates, self.helpers = [], [], Helpers(self.places.width)
        yield from map(comment, self.head())
        for sheet in self.places.sheets():
            moved = self.places.moved[sheet.name]
            yield comment(f"the sheet {one_line(sheet.name)}" + (f", from column {column_letters(moved + 1)} on" if moved else ""))
            arrays = array_members(sheet)
            for address, cell in sorted(sheet.cells.items()):
                yield self.command(sheet, address, cell, arrays)
        for block in self.helpers.blocks.values():
            yield comment(block.told()) + block.lines()

    def head(self) -> Iterator[str]:
        """What a reader of the script should know: sheets that are left out, settings, names."""
        left = [one_line(sheet.name) for sheet in self.places.left_out()]
        if left:
            yield f"not taken: {', '.join(left)[:LONGEST_COMMENT]} (whatif-import FILE SHEET takes one and what it reads, --all takes all)"
        yield from told_settings(self.document, self.places)
        sheets = self.places.sheets()
        names = [(name, sheets[0]) for name in self.document.names.values()]
        for name, sheet in [*names, *((name, sheet) for sheet in sheets for name in sheet.names.values())]:
            place = self.named(name.range, sheet)
            if place is not None:
                yield f"name {one_line(name.spelled)} {place}"

    def named(self, range_: str | None, sheet: Sheet) -> str | None:
        """The rectangle of a named range in the script; None where it lies elsewhere."""
        try:
            return None if range_ is None else re.sub(r"[\[\].$]", "", self.places.reference(f"[{range_}]", sheet))
        except CannotGoOver:
            return None

    def cells(self) -> Iterator[Carried]:
        for sheet in self.places.sheets():
            for address, cell in sorted(sheet.cells.items()):
                yield Carried(sheet.name, address, self.places.place(sheet, address), cell)

    def command(self, sheet: Sheet, address: Address, cell: Cell, arrays: dict[Address, Address]) -> str:
        """The command that puts a cell, below a comment where it isn't what it was; nothing where none can."""
        place = self.places.place(sheet, address)
        why = None
        if cell.formula is not None:
            try:
                return self.formula(sheet, address, cell)
            except CannotGoOver as error:
                why = str(error)
        elif address in arrays:
            why = f"a part of the array formula of {arrays[address]}"
        try:
            if not cell.has_value:
                raise CannotGoOver("no value is saved")
            text = content(cell, self.document.start_of_days)
        except CannotGoOver as error:
            self.left_empty.add(place)
            self.note(sheet, address, f"{why or error}: nothing is put in")
            return comment(f"{place} is left empty: {why or error}")
        if cell.kind in ("date", "time") and why is None:
            self.dates.append(place)
        return self.freeze(sheet, address, cell, text, why) if why is not None else put(place, text)

    def freeze(self, sheet: Sheet, address: Address, cell: Cell, text: str, why: str) -> str:
        """A value that stands for a formula, below a comment that says so."""
        place = self.places.place(sheet, address)
        self.frozen[place] = Note(sheet.name, address, f"{why}: its value is put in instead")
        self.notes.append(self.frozen[place])
        was = f"; it was {one_line(cell.formula.removeprefix('of:'))}" if cell.formula is not None else ""
        return comment(f"{place} is frozen at {one_line(text)}{was} ({one_line(why)})") + put(place, text)

    def formula(self, sheet: Sheet, address: Address, cell: Cell) -> str:
        """The command for a formula, or why there is none."""
        text = cell.formula or ""
        if cell.array is not None:
            raise CannotGoOver("an array formula")
        if not is_formula(text):
            raise CannotGoOver(f"a formula of another kind: {one_line(text)}")
        place, mark = self.places.place(sheet, address), self.helpers.mark()
        book = Translator(self.places, sheet, address, self.helpers, RULES, self.expands_loans)
        try:
            formula = checked(book.formula(text))
            for block in self.helpers.since(mark):
                checked(block.first)
                checked(block.rest)
        except UnknownFunction as error:
            self.helpers.back_to(mark)
            return self.unknown(place, sheet, address, cell, error)
        except CannotGoOver:
            self.helpers.back_to(mark)
            raise
        self.formula_at[place] = formula
        if not book.rewritten:
            return f"set {place} {formula}\n"
        self.rewritten[place] = ", ".join(dict.fromkeys(book.rewritten))
        return comment(f"{place} was {text.removeprefix('of:')}") + f"set {place} {formula}\n"

    def unknown(self, place: Address, sheet: Sheet, address: Address, cell: Cell, error: UnknownFunction) -> str:
        """A formula with a function that isn't there stays as it is where no value is saved that could stand for it."""
        if cell.has_value and not cell.is_error:
            raise error
        keeps_all = Translator(self.places, sheet, address, self.helpers, RULES, keeps_unknown=True)
        self.note(sheet, address, f"{error}, so it shows #NAME?")
        return comment(f"{place} shows #NAME?: {error}") + f"set {place} {checked(keeps_all.formula(cell.formula or ''))}\n"

    def note(self, sheet: Sheet, address: Address, why: str) -> None:
        self.notes.append(Note(sheet.name, address, why))


def checked(formula: str) -> str:
    """A formula that whatif takes."""
    wrong = fault(formula)
    if wrong is not None:
        raise CannotGoOver(f"the formula is {wrong.code} from {one_line(formula[wrong.place :][:20])!r} on")
    return formula


def comment(text: str) -> str:
    """A comment of a script; whatever is in the text, it is one line."""
    return f"# {one_line(text, 3 * LONGEST_COMMENT)}\n"


def one_line(text: str, longest: int = LONGEST_COMMENT) -> str:
    """A text for a comment: one line, and not too long."""
    plain = re.sub(r"[\s\x00-\x1f\x7f-\x9f\u2028\u2029]+", " ", text[: 4 * longest]).strip()
    return plain if len(plain) <= longest else f"{plain[:longest]} .."


def array_members(sheet: Sheet) -> dict[Address, Address]:
    """The cells of array formulas besides the first of each, which has the formula."""
    found: dict[Address, Address] = {}
    for address, cell in sheet.cells.items():
        if cell.array is not None:
            rows, columns = (min(count, 1_000) for count in cell.array)
            members = (Address(address.row + down, address.column + right) for down in range(rows) for right in range(columns))
            found.update((member, address) for member in members if member != address and member in sheet.cells)
    return found
