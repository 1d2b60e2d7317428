"""Refusals, as exceptions, with what to write instead."""

from __future__ import annotations

import re
from collections.abc import Collection

from .hints import hint_for

MEANINGS = {  # in the words of `whatif --help`
    "E01": "memory is short",
    "E02": "no such command, or wrong words",
    "E03": "the line is too long or no UTF-8",
    "E04": "an address is outside the sheet",
    "E05": "the formula's syntax",
    "E06": "the formula is nested too deep",
    "E07": "a number in the formula doesn't fit",
    "E08": "the text or formula is too long",
    "E09": "too many cells would be filled",
    "E10": "no such scenario",
    "E11": "too many scenarios, replacements or sessions",
    "E12": "the scenario is in use",
    "E13": "the script ends before the last line of CSV",
    "E14": "a field is no UTF-8",
    "E15": "the area is too large",
    "E16": "a reference would leave the sheet",
    "E17": "too many edits",
    "E18": "another session changed the cell that is named behind the number",
    "E19": "a scenario would be based on itself",
}
AREA = re.compile(r"[A-Za-z]{1,3}[1-9][0-9]*(:[A-Za-z]{1,3}[1-9][0-9]*)?$")


class Refused(Exception):
    """A command that was refused; nothing has changed.

    `code` is E01 to E19, `meaning` what it stands for, `hint` what to write instead, where that is known, and `command` the line that
    was sent. `place` is the cell that the reply names, else the first address of the command, if it has one; `line` is the number of
    the line, if it is one of a script.
    """

    def __init__(self, reply: str, command: str, scenarios: Collection[str] = (), line: int | None = None) -> None:
        code, _, cell = reply.partition(" ")
        self.reply = reply
        self.code = code
        self.meaning = MEANINGS.get(code, "unknown to this client")
        self.hint = hint_for(code, command, scenarios)
        self.command = command
        self.place = cell or first_address(command)
        self.line = line
        at = f"line {line}: " if line else ""
        hint = f"\n  {self.hint}" if self.hint else ""
        super().__init__(f"{at}refused {reply}: {self.meaning}: {command[:200]}{hint}")


def first_address(command: str) -> str | None:
    """The first address or rectangle of a command.

    >>> first_address("force set B1 5"), first_address("table B4 B1 D2:D9"), first_address("changes")
    ('B1', 'B4', None)
    """
    return next((word for word in command.split()[1:] if AREA.match(word)), None)
