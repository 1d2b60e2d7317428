"""SUMPRODUCT over conditions: what it works out place by place, a column of help has in its cells."""

from .helpers import pinned, rectangle_of, relative_cell
from .parameters import range_of, shape
from .pieces import REFERENCE, Call, CannotGoOver, Group, Item, Items, Piece, PieceKind, leaves
from .sheet import ROWS, Rectangle
from .translate import Rule, Translator

PLACE_BY_PLACE = frozenset("ABS INT TRUNC ROUND ROUNDUP ROUNDDOWN MOD SIGN NOT IF ISNUMBER ISTEXT ISBLANK ISERROR LEN".split())
"""Functions of single values, which go through a range place by place."""


def sum_product(book: Translator, call: Call) -> str:
    if all(range_of(parameter, book) is not None for parameter in call.parameters):
        return f"SUMPRODUCT({';'.join(book.text(parameter) for parameter in call.parameters)})"
    places = list(dict.fromkeys(place for parameter in call.parameters for place in ranges_in(book, parameter)))
    if not places or len({(place.last.row - place.first.row, place.last.column - place.first.column) for place in places}) != 1:
        raise CannotGoOver("SUMPRODUCT of ranges that differ in size, or of none")
    if any(place.last.row == ROWS for place in places):
        raise CannotGoOver("SUMPRODUCT over a condition to the end of the sheet")
    formula = "*".join(factor(book, parameter) for parameter in call.parameters)
    rows, columns = shape(f"[.{places[0].first}:.{places[0].last}]")
    block = book.helpers.block(places[0].first.row, rows, columns, f"=0+{formula}", f"a place of {call.name} in each cell")
    return f"SUM({block.text})"


def ranges_in(book: Translator, items: Items) -> list[Rectangle]:
    """The ranges of several cells in a parameter."""
    texts = (book.piece(piece) for piece in leaves(items) if piece.kind in (REFERENCE, PieceKind.NAME.name))
    return [rectangle_of(text) for text in texts if text.startswith("[") and ":" in text]


def factor(book: Translator, items: Items) -> str:
    """A parameter at one place: of a range what is a number there, else 0."""
    text = range_of(items, book)
    if text is not None:
        cell = relative_cell(rectangle_of(text))
        return f"IF(ISTEXT({cell});0;0+{cell})"
    return f"({''.join(at_place(book, item) for item in items).strip()})"


def at_place(book: Translator, item: Item) -> str:
    """An item with the first cell of each range in the range's place, and all other cells as they stand."""
    if isinstance(item, Piece):
        if item.text == "&":
            raise CannotGoOver("SUMPRODUCT of texts")
        text = book.piece(item)
        if item.kind not in (REFERENCE, PieceKind.NAME.name) or not text.startswith("["):
            return pinned(text) if item.kind == PieceKind.NAME.name else text
        return relative_cell(rectangle_of(text)) if ":" in text else pinned(text)
    if isinstance(item, Group):
        return f"({''.join(at_place(book, inner) for inner in item.items)})"
    if item.name.upper() not in PLACE_BY_PLACE:
        raise CannotGoOver(f"SUMPRODUCT of what {item.name} gives")
    return f"{item.name.upper()}({';'.join(''.join(at_place(book, inner) for inner in parameter) for parameter in item.parameters)})"


PRODUCTS: dict[str, Rule] = {"SUMPRODUCT": sum_product}
