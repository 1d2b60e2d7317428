"""All values of the sheet with their kinds."""

from __future__ import annotations

from .journal import RESERVED
from .process import Process
from .refusals import Refused
from .values import Value, read_kind


class Reader:
    """Keeps the values, by a session of its own that asks for changes. After an interrupted look there is a new session, since what was
    told then is lost."""

    def __init__(self, process: Process) -> None:
        self._process = process
        self._values: dict[str, Value] = {}
        self._lost = 0

    def look(self, scenario: str | None) -> dict[str, Value]:
        """The values under a scenario. It isn't left in use, so that it can be dropped."""
        session = f"{RESERVED}reader{self._lost or ''}"
        try:
            if scenario:
                self._process.run(session, f"use {scenario}")
            for address, kind, text in self._process.run(session, "changes"):
                self._values[address] = read_kind(kind, text)
            if scenario:
                self._process.run(session, "use")
        except Refused:
            self._process.run(session, "use")
            raise
        except BaseException:
            self._lost += 1
            self._values = {}
            self._process.later(session, "use")
            raise
        return self._values
