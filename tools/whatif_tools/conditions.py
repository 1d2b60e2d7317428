"""SUMIFS and its like: a column of help is 1 where all conditions hold, and SUMIF goes by it."""

import re
from dataclasses import dataclass

from .helpers import Block, pinned, rectangle_of, reference, relative_cell
from .parameters import range_of, shape
from .pieces import Call, CannotGoOver, Items
from .sheet import ROWS, Address, Rectangle
from .translate import Rule, Translator


@dataclass(frozen=True)
class Condition:
    """A range and the criterion that its cells meet."""

    place: Rectangle
    criterion: str

    def test(self) -> str:
        """1 where the first cell of the range meets the criterion, else 0; it moves when it is filled.

        There an empty cell, and one with an error, meets each criterion that something isn't something, and here none does.
        """
        cell, criterion = relative_cell(self.place), pinned(self.criterion)
        counted = f"COUNTIF({cell};{criterion})"
        if is_unequal(criterion):
            return f"({counted}+ISBLANK({cell})+ISERROR({cell}))"
        is_asked = f'(LEFT({criterion};2)="<>")*(LEN({criterion})>2)'
        return counted if is_plain(criterion) else f"({counted}+(ISBLANK({cell})+ISERROR({cell}))*{is_asked})"

    def told(self) -> str:
        return f"{reference(self.place).strip('[]').replace('.', '')} meets {self.criterion}"


def is_unequal(criterion: str) -> bool:
    """Whether a criterion is a text such as "<>low", as it stands."""
    return re.fullmatch(r'"<>[^"]+"', criterion) is not None


def is_plain(criterion: str) -> bool:
    """Whether it is a number or another text, as it stands."""
    if re.fullmatch(r'"=?"', criterion):
        raise CannotGoOver("a criterion that asks for empty cells")
    return re.fullmatch(r'-?[0-9.]+|"[^"]*"', criterion) is not None


def is_selective(criterion: str) -> bool:
    """Whether no empty cell meets a criterion."""
    return not is_unequal(criterion) and is_plain(criterion)


def place_of(book: Translator, items: Items, call: Call) -> Rectangle:
    text = range_of(items, book)
    if text is None:
        raise CannotGoOver(f"{call.name} of what is no reference")
    return rectangle_of(text)


def conditions(book: Translator, call: Call, parameters: tuple[Items, ...]) -> list[Condition]:
    if len(parameters) % 2 or not parameters:
        raise CannotGoOver(f"{call.name} with a range that has no criterion")
    return [Condition(place_of(book, place, call), criterion(book, other, call)) for place, other in zip(parameters[::2], parameters[1::2])]


def criterion(book: Translator, items: Items, call: Call) -> str:
    text = book.text(items).strip()
    known = range_of(items, book)
    if known is not None and ":" in known:
        raise CannotGoOver(f"{call.name} with a criterion of several cells")
    return text


def cut(place: Rectangle, rows: int) -> Rectangle:
    return Rectangle(place.first, Address(min(place.last.row, place.first.row + rows - 1), place.last.column))


def used_rows(book: Translator, places: list[Rectangle]) -> int:
    """How many rows of ranges that go to the end of the sheet have something in them."""
    height = max(sheet.height() for sheet in book.places.sheets())
    is_open = all(place.last.row == ROWS for place in places)
    return max(height - min(place.first.row for place in places) + 1, 1) if is_open else ROWS


def help_for(book: Translator, call: Call, known: list[Condition], values: Rectangle | None, more: str = "") -> tuple[Block, Rectangle | None]:
    """The column of help for conditions, and the range of values beside it; ranges to the end of the sheet are cut to the rows in use."""
    places = [condition.place for condition in known] + ([] if values is None else [values])
    if len({shape(reference(place)) for place in places}) != 1:
        raise CannotGoOver(f"{call.name} of ranges that differ in size")
    rows = used_rows(book, places)
    known = [Condition(cut(condition.place, rows), condition.criterion) for condition in known]
    kept = None if values is None else cut(values, rows)
    height, width = shape(reference(known[0].place))
    formula = "*".join(condition.test() for condition in known)
    why = "1 where " + " and ".join(condition.told() for condition in known)
    if more and kept is not None:
        formula, why = more.format(all=formula, value=relative_cell(kept)), f"{why}, and there is a number"
    return book.helpers.block(known[0].place.first.row, height, width, f"={formula}", why), kept


def with_error(block: Block) -> str:
    """0, or the error of a criterion, which each cell of the help shows then."""
    return f"0*{relative_cell(block.place)}"


NUMBER_TOO = "{all}*(ISNUMBER({value})+ISERROR({value}))"
CHOSEN = "IF({all}*(ISNUMBER({value})+ISERROR({value}))=1;{value};\"\")"


def sum_ifs(book: Translator, call: Call) -> str:
    known = conditions(book, call, call.parameters[1:])
    block, values = help_for(book, call, known, place_of(book, call.parameters[0], call))
    assert values is not None
    return f"(SUMIF({block.text};1;{reference(values)})+{with_error(block)})"


def count_ifs(book: Translator, call: Call) -> str:
    known = conditions(book, call, call.parameters)
    if all(condition.place.last.row == ROWS for condition in known) and not any(is_selective(condition.criterion) for condition in known):
        raise CannotGoOver("COUNTIFS that counts empty cells to the end of the sheet")
    block, _ = help_for(book, call, known, None)
    return f"SUM({block.text})"


def average_ifs(book: Translator, call: Call) -> str:
    known = conditions(book, call, call.parameters[1:])
    return average(book, call, known, place_of(book, call.parameters[0], call))


def average_if(book: Translator, call: Call) -> str:
    if len(call.parameters) not in (2, 3):
        raise CannotGoOver(f"AVERAGEIF with {len(call.parameters)} parameters")
    known = conditions(book, call, call.parameters[:2])
    return average(book, call, known, place_of(book, call.parameters[-1] if len(call.parameters) == 3 else call.parameters[0], call))


def average(book: Translator, call: Call, known: list[Condition], place: Rectangle) -> str:
    block, values = help_for(book, call, known, place, NUMBER_TOO)
    assert values is not None
    return f"(SUMIF({block.text};1;{reference(values)})/SUM({block.text}))"


def extreme(function: str) -> Rule:
    def rule(book: Translator, call: Call) -> str:
        known = conditions(book, call, call.parameters[1:])
        block, _ = help_for(book, call, known, place_of(book, call.parameters[0], call), CHOSEN)
        return f"{function}({block.text})"

    return rule


CONDITIONS: dict[str, Rule] = {
    "SUMIFS": sum_ifs,
    "COUNTIFS": count_ifs,
    "AVERAGEIF": average_if,
    "AVERAGEIFS": average_ifs,
    "MAXIFS": extreme("MAX"),
    "MINIFS": extreme("MIN"),
}
