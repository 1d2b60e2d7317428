"""What a workbook was told and has accepted: its scenarios, the session and the scenario in use, and the script that makes it again."""

from __future__ import annotations

EDITS = frozenset({"set", "clear", "fill", "csv", "scenario", "base", "drop"})
RESERVED = "whatif_py_"
"""Scenarios and sessions of the client's own have names that begin so."""


class Journal:
    """Follows the accepted commands. Of the edits of a cell in a row of `set`s only the last is kept."""

    def __init__(self) -> None:
        self.session = "main"
        self.in_use: dict[str, str | None] = {}
        self.scenarios: dict[str, None] = {}
        self._edits: dict[tuple[int, str], tuple[str, bytes]] = {}
        self._row = 0

    def accept(self, line: str, data: bytes) -> None:
        """Takes note of a command that was answered by `ok`.

        >>> journal = Journal()
        >>> for line in ("set A1 4", "force set B1 5", "set A1 6", "show A1", "scenario s A1 7", "set A1 8"): journal.accept(line, b"")
        >>> journal.script(), list(journal.scenarios)
        ('set A1 6\\nset B1 5\\nscenario s A1 7\\nset A1 8\\n', ['s'])
        """
        words = line.split(None, 2)
        name = words[1] if len(words) > 1 else None
        if words[0] == "force":
            self.accept(line.split(None, 1)[1], data)
        elif words[0] in EDITS:
            self._edit(words[0], name or "", line, data)
        elif words[0] == "as" and name:
            self.session = name
        elif words[0] == "use":
            self.in_use[self.session] = name

    def _edit(self, verb: str, name: str, line: str, data: bytes) -> None:
        if name.startswith(RESERVED):
            return
        if verb != "set":
            self._row += 2
        self._edits[(self._row, name.upper()) if verb == "set" else (self._row - 1, "")] = line, data
        if verb == "scenario":
            self.scenarios[name] = None
        elif verb == "drop":
            self.scenarios.pop(name, None)

    def script(self) -> str:
        """The script of the accepted edits."""
        return "".join(f"{line}\n{data.decode()}" for line, data in self._edits.values())
