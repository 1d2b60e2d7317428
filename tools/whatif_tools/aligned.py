"""Records as a table whose columns stand below each other."""

from collections.abc import Sequence
from unicodedata import combining, east_asian_width

from .numbers import is_number
from .script import Command
from .sheet import Rectangle, column_letters

WIDEST = 40
"""A longer text is cut."""

HEADS = {"changes": ["cell", "kind", "shows"], "formula": ["cell", "content"]}


def table_of(command: Command, records: list[list[str]]) -> str:
    """The reply to a command, its columns and rows named where they are cells."""
    if not records:
        return ""
    words = command.words
    area = Rectangle.parse(words[1]) if command.name in ("show", "export") else None
    if area is not None:
        head = ["", *(column_letters(area.first.column + at) for at in range(len(records[0])))]
        return aligned([head, *([str(area.first.row + down), *record] for down, record in enumerate(records))])
    if command.name == "compare":
        return aligned([["cell", words[1], words[2], "difference"], *records])
    if command.name == "table" and len(words) == 4:
        return aligned([[words[2], words[1]], *records])
    titles = [HEADS[command.name]] if command.name in HEADS else []
    return aligned(titles + records)


def aligned(rows: Sequence[Sequence[str]]) -> str:
    """Numbers stand to the right, all else to the left, and a heading as what is below it."""
    cut = [[shortened(text) for text in row] for row in rows]
    columns = [[row[at] for row in cut if at < len(row)] for at in range(max(map(len, cut)))]
    widths = [max(map(width, column)) for column in columns]
    head = cut[0]
    to_right = [all(map(is_number, column[1:])) and len(column) > 1 for column in columns]
    lines = ("  ".join(padded(text, widths[at], row is head and to_right[at]) for at, text in enumerate(row)).rstrip() for row in cut)
    return "".join(f"{line}\n" for line in lines)


def shortened(text: str) -> str:
    line = "".join(character if character.isprintable() else "\u00b7" for character in text)
    return line if len(line) <= WIDEST else line[: WIDEST - 2] + ".."


def width(text: str) -> int:
    """How many places of a terminal a text takes."""
    return sum(0 if combining(character) else 2 if east_asian_width(character) in "WF" else 1 for character in text)


def padded(text: str, to: int, is_to_right: bool) -> str:
    space = " " * (to - width(text))
    return space + text if is_to_right or is_number(text) else text + space
