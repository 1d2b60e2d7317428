"""The parameters of a call that is said otherwise."""

from .helpers import rectangle_of
from .pieces import REFERENCE, Call, CannotGoOver, Items, Piece, PieceKind
from .translate import Translator

NO_VALUE = 'VALUE("")'
"""What shows #VALUE!."""


def trimmed(items: Items) -> Items:
    """Items without the blanks around them."""
    is_blank = [isinstance(item, Piece) and item.kind == PieceKind.BLANK.name for item in items]
    return tuple(item for item, blank in zip(items, is_blank) if not blank) if len(items) - sum(is_blank) == 1 else items


def operands(book: Translator, call: Call, least: int, most: int) -> list[str]:
    """The parameters as texts that may stand beside an operator; as many as the function takes."""
    if not least <= len(call.parameters) <= most or any(not trimmed(parameter) for parameter in call.parameters):
        raise CannotGoOver(f"{call.name} with {len(call.parameters)} parameters, or with one left out")
    return [operand(book, parameter) for parameter in call.parameters]


def operand(book: Translator, items: Items) -> str:
    text = book.text(items).strip()
    return text if len(trimmed(items)) == 1 else f"({text})"


def is_range(items: Items, book: Translator) -> bool:
    """Whether a parameter is a reference to several cells, by a name perhaps."""
    return range_of(items, book) is not None


def range_of(items: Items, book: Translator) -> str | None:
    """The text of a parameter that is a reference, and nothing else."""
    only = trimmed(items)
    if len(only) != 1 or not isinstance(only[0], Piece) or only[0].kind not in (REFERENCE, PieceKind.NAME.name):
        return None
    text = book.piece(only[0])
    return text if text.startswith("[") else None


def one_value(book: Translator, call: Call, least: int, most: int) -> list[str]:
    """The parameters of a function of single values: none may be several cells, which would make it an array's."""
    for parameter in call.parameters:
        text = range_of(parameter, book)
        if text is not None and ":" in text:
            raise CannotGoOver(f"{call.name} of several cells")
    return operands(book, call, least, most)


def shape(text: str) -> tuple[int, int]:
    """How many rows and columns a reference has."""
    place = rectangle_of(text)
    return place.last.row - place.first.row + 1, place.last.column - place.first.column + 1


def is_literal(items: Items) -> bool:
    """Whether a parameter is a number or a text, as it stands."""
    only = trimmed(items)
    return len(only) == 1 and isinstance(only[0], Piece) and only[0].kind in (PieceKind.NUMBER.name, PieceKind.TEXT.name)


def is_positive(items: Items) -> bool:
    """Whether a parameter is a number above 0, as it stands."""
    only = trimmed(items)
    return len(only) == 1 and isinstance(only[0], Piece) and only[0].kind == PieceKind.NUMBER.name and only[0].text.strip("0.") != ""
