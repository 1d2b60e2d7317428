"""A formula of a spreadsheet's file in pieces: calls with their parameters, groups, references, names, texts and the rest."""

import re
from collections.abc import Iterator
from dataclasses import dataclass
from enum import Enum
from typing import Union

from .formula import BLANK as BLANKS
from .formula import DEEPEST, QUOTED

LONGEST = 8_192
"""A longer formula can't be one of at most 4,096 bytes."""


class CannotGoOver(Exception):
    """Why a formula or a value can't be one of whatif."""


class PieceKind(Enum):
    """Pieces of any formula, whatever whatif makes of them, and with what stands between them. So they are others than the tokens of `formula`."""

    TEXT = QUOTED
    NUMBER = r"(?:[0-9]+(?:\.[0-9]*)?|\.[0-9]+)(?:[eE][-+]?[0-9]+)?"
    NAME = r"[^\W\d][\w.]*"
    BLANK = f"[{BLANKS}]+"
    OTHER = r"<=|>=|<>|."


PIECE = re.compile("|".join(f"(?P<{kind.name}>{kind.value})" for kind in PieceKind), re.DOTALL)
REFERENCE = "REFERENCE"


@dataclass(frozen=True)
class Piece:
    """What stands alone: its kind is that of a `PieceKind`, or `REFERENCE`."""

    kind: str
    text: str


@dataclass(frozen=True)
class Group:
    items: tuple["Item", ...]


@dataclass(frozen=True)
class Call:
    name: str
    parameters: tuple[tuple["Item", ...], ...]


Item = Union[Piece, Group, Call]
Items = tuple[Item, ...]


def pieces(formula: str) -> list[Piece]:
    """The pieces of a formula, from behind its `=` on."""
    if len(formula) > LONGEST:
        raise CannotGoOver("a formula of more than 4,096 bytes")
    found: list[Piece] = []
    place = formula.index("=") + 1
    while place < len(formula):
        if formula[place] == "[":
            end = reference_end(formula, place)
            found.append(Piece(REFERENCE, formula[place:end]))
        else:
            match = PIECE.match(formula, place)
            if match is None or match.lastgroup is None or match[0] == '"':
                raise CannotGoOver(f"a text that isn't closed: {formula[place:][:20]}")
            end = match.end()
            found.append(Piece(match.lastgroup, match[0]))
        place = end
    return found


def reference_end(formula: str, place: int) -> int:
    """Where the brackets of a reference end; a sheet's name in quotes may have brackets in it."""
    is_quoted = False
    for at in range(place, len(formula)):
        if formula[at] == "'":
            is_quoted = not is_quoted
        elif formula[at] == "]" and not is_quoted:
            return at + 1
    raise CannotGoOver(f"brackets that aren't closed: {formula[place:][:20]}")


@dataclass
class Reader:
    read: list[Piece]
    next: int = 0

    def items(self, depth: int, is_inside: bool) -> Iterator[Items]:
        """The items up to the closing parenthesis, or to the end; what semicolons part is apart."""
        if depth > DEEPEST:
            raise CannotGoOver("more than 64 parentheses open at once")
        found: list[Item] = []
        while self.next < len(self.read):
            piece = self.read[self.next]
            self.next += 1
            if piece.text == ")" and is_inside:
                yield tuple(found)
                return
            if piece.text == ";" and is_inside:
                yield tuple(found)
                found = []
            else:
                found.append(self.item(piece, depth))
        if is_inside:
            raise CannotGoOver("a parenthesis that isn't closed")
        yield tuple(found)

    def item(self, piece: Piece, depth: int) -> Item:
        if piece.kind == PieceKind.NAME.name and self.is_open():
            self.next += 1
            parameters = tuple(self.items(depth + 1, True))
            return Call(piece.text, () if parameters == ((),) else parameters)
        if piece.text == "(":
            inside = tuple(self.items(depth + 1, True))
            if len(inside) != 1:
                raise CannotGoOver("semicolons in a parenthesis")
            return Group(inside[0])
        return piece

    def is_open(self) -> bool:
        """Whether a parenthesis comes next, perhaps behind blanks, which are passed over then."""
        at = self.next
        while at < len(self.read) and self.read[at].kind == PieceKind.BLANK.name:
            at += 1
        is_open = at < len(self.read) and self.read[at].text == "("
        self.next = at if is_open else self.next
        return is_open


def tree_of(formula: str) -> Items:
    """The items of a formula, which begins with `=` or `of:=`."""
    (items,) = Reader(pieces(formula)).items(0, False)
    return items


def leaves(items: Items) -> Iterator[Piece]:
    """The pieces in a tree, from the left."""
    for item in items:
        if isinstance(item, Piece):
            yield item
        elif isinstance(item, Group):
            yield from leaves(item.items)
        else:
            for parameter in item.parameters:
                yield from leaves(parameter)


def calls(items: Items) -> Iterator[Call]:
    for item in items:
        if isinstance(item, Call):
            yield item
            for parameter in item.parameters:
                yield from calls(parameter)
        elif isinstance(item, Group):
            yield from calls(item.items)
