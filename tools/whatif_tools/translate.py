"""A formula of a spreadsheet as one of whatif: references moved, names put in, functions that whatif lacks said otherwise."""

import re
from collections.abc import Callable
from dataclasses import dataclass, field, replace

from .constants import DIGITS, number
from .document import Sheet
from .functions import FUNCTIONS
from .helpers import Helpers
from .move import Places, referred
from .pieces import REFERENCE, Call, CannotGoOver, Group, Item, Items, Piece, PieceKind, leaves, tree_of
from .sheet import Address

LONGEST = 4_096
DEEPEST_NAMES = 20
PREFIX = re.compile(r"(?i)(?:COM\.MICROSOFT|ORG\.(?:GNUMERIC|OPENOFFICE|LIBREOFFICE)|_XLFN\._XLWS|_XLFN)\.")
ZERO_IF_LEFT_OUT = ("IF", "VLOOKUP", "HLOOKUP", "MATCH", "ROUND", "ROUNDUP", "ROUNDDOWN", "TRUNC")
"""Functions whose parameters count as 0 where nothing stands between the semicolons."""


class UnknownFunction(CannotGoOver):
    """A function that whatif lacks, and that can't be said otherwise."""


@dataclass
class Translator:
    """Makes the text of one formula; `cell` is its place in the file."""

    places: Places
    sheet: Sheet
    cell: Address
    helpers: Helpers
    rules: dict[str, "Rule"]
    """What is said instead of a call, by the function's name."""

    expands_loans: bool = False
    keeps_unknown: bool = False
    """Whether a function that whatif lacks stays as it is."""

    rewritten: list[str] = field(default_factory=list)
    """The functions that are said otherwise."""

    names: tuple[str, ...] = ()
    """The names that are being put in."""

    def formula(self, text: str) -> str:
        return f"={self.text(tree_of(text)).strip()}"

    def text(self, items: Items) -> str:
        text = "".join(self.item(item) for item in items)
        if len(text) > LONGEST:
            raise CannotGoOver("a formula of more than 4,096 bytes")
        return text

    def item(self, item: Item) -> str:
        if isinstance(item, Group):
            return f"({self.text(item.items)})"
        return self.call(item) if isinstance(item, Call) else self.piece(item)

    def piece(self, piece: Piece) -> str:
        if piece.kind == REFERENCE:
            return self.places.reference(piece.text, self.sheet)
        if piece.kind == PieceKind.NAME.name:
            return self.name(piece.text)
        if piece.kind == PieceKind.TEXT.name and re.search(r"[\r\n]", piece.text):
            raise CannotGoOver("a line break in a text")
        if piece.kind == PieceKind.NUMBER.name:
            return without_noise(piece.text)
        if piece.text == "{":
            raise CannotGoOver("a list in braces")
        return " " if piece.kind == PieceKind.BLANK.name else piece.text

    def name(self, text: str) -> str:
        """What a name stands for: a reference, or an expression in parentheses."""
        name = self.places.name(text, self.sheet)
        if name is None:
            raise CannotGoOver(f"the name {text[:60]}, which isn't there")
        if name.range is not None:
            return self.places.reference(f"[{name.range}]", self.sheet)
        if text.upper() in self.names or len(self.names) > DEEPEST_NAMES:
            raise CannotGoOver(f"the name {text[:60]}, which stands for itself")
        tree = tree_of(f"={(name.expression or '').removeprefix('of:').removeprefix('=')}")
        for piece in leaves(tree):
            if piece.kind == REFERENCE:
                self.check_absolute(piece.text, name.spelled)
        value = replace(self, names=(*self.names, text.upper())).text(tree).strip()
        return value if re.fullmatch(r"[0-9.]+|\[[^\]]*\]", value) else f"({value})"

    def check_absolute(self, text: str, name: str) -> None:
        found = referred(text, self.sheet, 1)
        if not text.startswith("[$") or any(corner.count("$") < 2 for corner in (found.first, found.last)):
            raise CannotGoOver(f"the name {name[:60]}, whose references move with the cell")

    def call(self, call: Call) -> str:
        name = call.name.upper()
        plain = PREFIX.sub("", name)
        rule = self.rules.get(name) or self.rules.get(plain)
        if rule is not None and not self.keeps_unknown:
            said = rule(self, call)
            if not said.startswith(f"{plain}("):
                self.rewritten.append(plain)
            return said
        if plain not in FUNCTIONS and not self.keeps_unknown:
            raise UnknownFunction(f"{plain[:60]} isn't a function of whatif")
        return f"{plain}({';'.join(self.parameter(plain, parameter) for parameter in call.parameters)})"

    def parameter(self, function: str, items: Items) -> str:
        is_left_out = all(isinstance(item, Piece) and item.kind == PieceKind.BLANK.name for item in items)
        return "0" if is_left_out and function in ZERO_IF_LEFT_OUT else self.text(items)


def without_noise(text: str) -> str:
    """A number of a formula, a decimal at 15 digits: Gnumeric writes 1.04999999999999999996 for 1.05."""
    return number(text) if "." in text and len(text) > DIGITS else text


Rule = Callable[[Translator, Call], str]
"""Gives the text of a call, or raises `CannotGoOver`."""
