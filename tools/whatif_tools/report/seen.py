"""What every cell shows at a place of a script, and what of it is needed to draw a question."""

from dataclasses import dataclass, field

from whatif.drawing import Bar, Label
from whatif.drawing.cells import MOST_DRAWN

from ..program import Reply
from ..sheet import Address, Rectangle
from .labels import names_in
from .questions import Question
from .sensitivity import Plan

Formulas = dict[Address, str]
Changes = list[tuple[Address, str, str]]


def changes_in(reply: Reply) -> Changes:
    """The records of a `changes`."""
    found = ((Address.parse(address), kind, text) for address, kind, text in reply.records())
    return [(at, kind, text) for at, kind, text in found if at is not None]


@dataclass
class Picture:
    """What every cell shows, kept up by lists of changes."""

    cells: dict[Address, tuple[str, str]] = field(default_factory=dict)

    def take(self, changes: Changes) -> None:
        for at, kind, text in changes:
            if kind == "-":
                self.cells.pop(at, None)
            else:
                self.cells[at] = (kind, text)

    def label(self, address: str) -> str:
        return names_in(self.cells).at(address)

    def text(self, address: str) -> str:
        at = Address.parse(address)
        return "" if at is None else self.cells.get(at, ("-", ""))[1]

    def inside(self, words: list[str]) -> list[Address]:
        """The cells of an area that show something."""
        area = Rectangle.parse(words[1])
        if area is None:
            return []
        if area.cells() > len(self.cells):
            return [at for at in self.cells if at in area]
        rows, columns = range(area.first.row, area.last.row + 1), range(area.first.column, area.last.column + 1)
        return [at for at in (Address(row, column) for row in rows for column in columns) if at in self.cells]


@dataclass
class Seen:
    """What was known at a question: names, texts and formulas by address."""

    labels: dict[str, str] = field(default_factory=dict)
    values: dict[str, str] = field(default_factory=dict)
    texts: set[str] = field(default_factory=set)
    formulas: dict[str, str] = field(default_factory=dict)
    before: dict[str, str] = field(default_factory=dict)
    """What the session of a `changes` had been shown."""

    plans: list[Plan] = field(default_factory=list)
    bars: list[list[Bar]] = field(default_factory=list)
    """What came of the plans; empty where that can't be asked."""

    def label(self, address: str) -> Label:
        at = address.upper()
        return Label(at, self.labels.get(at, ""))


def seen_at(question: Question, picture: Picture, formulas: Formulas) -> Seen:
    """The names and values of the cells that a question names, and of those in its reply."""
    words, name = question.command.words, question.command.name
    seen, names = Seen(), names_in(picture.cells)
    addresses: list[str] = []
    if question.is_refused:
        return seen
    if name == "table":
        addresses = [words[1], words[2], *words[4:5]]
    elif name == "compare":
        addresses = [record[0] for record in question.reply.records()]
    elif name == "changes":
        addresses = [address for address, kind, _ in question.reply.records() if kind != "T"]
    elif name in ("show", "export"):
        inside = picture.inside(words)
        seen.texts = {str(at) for at in inside if picture.cells[at][0] == "T"}
        seen.formulas = {str(at): formulas[at] for at in inside if at in formulas}
        addresses = [] if ":" in words[1] else [words[1]]
    for address in map(str.upper, addresses[:MOST_DRAWN]):
        seen.labels[address] = names.at(address)
        seen.values[address] = picture.text(address)
    return seen
