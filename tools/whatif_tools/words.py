"""Which word of a refused line is the wrong one, by the forms that the program's help has."""

import re
from collections.abc import Callable
from dataclasses import dataclass

from .script import Command
from .sheet import ADDRESS, AREA, Rectangle

NAME = re.compile(r"[A-Za-z0-9_]{1,32}")
LINES = re.compile(r"[0-9]{1,7}")
EDITS = ("set", "clear", "fill", "csv")


def is_address(word: str) -> bool:
    return ADDRESS.fullmatch(word) is not None


def is_area(word: str) -> bool:
    return AREA.fullmatch(word) is not None


def is_column(word: str) -> bool:
    area = Rectangle.parse(word)
    return is_area(word) and (area is None or area.first.column == area.last.column)


def is_row(word: str) -> bool:
    area = Rectangle.parse(word)
    return is_area(word) and (area is None or area.first.row == area.last.row)


def is_name(word: str) -> bool:
    return NAME.fullmatch(word) is not None


def is_name_or_none(word: str) -> bool:
    return word == "-" or is_name(word)


def is_count(word: str) -> bool:
    return LINES.fullmatch(word) is not None


def is_edit(word: str) -> bool:
    return word in EDITS


FITS: dict[str, Callable[[str], bool]] = {
    **dict.fromkeys(("ADDR", "F", "R", "C"), is_address),
    "RECT": is_area,
    "XCOLUMN": is_column,
    "YROW": is_row,
    **dict.fromkeys(("NAME", "OTHER", "SESSION"), is_name),
    **dict.fromkeys(("S", "T"), is_name_or_none),
    "LINES": is_count,
    "COMMAND": is_edit,
    "CONTENT": lambda word: word != "",
}
"""What a word must be, by what it is called in a form."""


@dataclass(frozen=True)
class Word:
    """A word, and where it stands in its line, counted from 0."""

    text: str
    place: int


def words_of(line: str) -> list[Word]:
    return [Word(found[0], found.start()) for found in re.finditer("[^ ]+", line)]


def wrong_place(command: Command, forms: dict[str, list[str]]) -> int:
    """Where the first word is that no form of the command goes on with; behind the last one where a word is missing."""
    words = words_of(command.text)
    is_forced = len(words) > 1 and words[0].text == "force" and words[1].text in EDITS
    name, *rest = words[1:] if is_forced else words
    if name.text not in forms:
        return name.place
    end = len(command.text.rstrip(" "))
    return max(misfit(form.split(" ")[1:], rest, end) for form in forms[name.text])


def misfit(kinds: list[str], words: list[Word], end: int) -> int:
    """Where the words go on otherwise than a form does."""
    for kind, word in zip(kinds, words):
        if not FITS[kind](word.text):
            return word.place
    return words[len(kinds)].place if len(words) > len(kinds) and "CONTENT" not in kinds else end
