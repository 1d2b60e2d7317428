"""What is found in a script, and how it is printed."""

from dataclasses import dataclass
from enum import Enum

WIDEST = 100
"""So many characters of a line are shown."""


class Kind(Enum):
    """The kinds of findings."""

    ENCODING = "the script isn't UTF-8, or begins with a byte order mark"
    REFUSED = "a command was refused"
    TEXT_FOR_NUMBER = "a content that looks like a number is a text"
    COLUMN_OF_TEXTS = "so are fields of one column of CSV"
    QUOTES_KEPT = "quotes around a content are a part of it"
    COMMENT_KEPT = "a comment behind a content is a part of it"
    FORMULA_AS_TEXT = "a formula without =, in a scenario or in CSV is a text"
    COMMAND_AS_DATA = "a data line looks like a command"
    OPEN_QUOTE = "a quote among the data lines isn't closed"
    MORE_FIELDS = "a data line has more fields than the first one"
    EMPTY_INPUT = "a table is asked for empty cells"
    SEMICOLONS = "data lines are parted by semicolons"
    TABS = "data lines are parted by tabs"
    UNREAD_INPUT = "a what-if replaces an input that its formula cell doesn't rest on"
    OVER_FORMULA = "a number or a text was put over a formula"
    NEW_NAME = "a scenario or a session is new, and its name is nearly that of another"
    ERROR_IN_REPLY = "a reply has an error that the sheet hasn't"
    NOT_AS_MEANT = "a comment says that a refusal or an error is meant, and there is none"
    REPLACED = "an edit of a cell that the scenario in use replaces doesn't show"
    ERROR_STARTS = "an error starts in a cell"
    NO_REPLY = "the program ended before a command"


@dataclass(frozen=True)
class Finding:
    """Lines and columns are counted from 1, columns in characters."""

    line: int
    column: int
    kind: Kind
    message: str
    shown: str | None = None
    """The line, where it helps to see it."""

    code: str | None = None
    """The code of the refusal or the name of the error, as a comment `#! ..` has it."""

    def text(self, name: str) -> str:
        head = f"{name}:{self.line}:{self.column}: {self.message}\n"
        return head if self.shown is None else head + excerpt(self.shown, self.column - 1)


def excerpt(line: str, place: int) -> str:
    """The line, or what is around the place in a long one, and a caret under the place."""
    start = max(0, min(place - WIDEST // 2, len(line) - WIDEST))
    part = line[start : start + WIDEST]
    padding = "".join("\t" if character == "\t" else " " for character in part[: place - start])
    return f"    {part}\n    {padding}^\n"
