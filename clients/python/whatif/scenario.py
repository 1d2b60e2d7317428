"""Scenarios: named ones, and one for the time of some questions."""

from __future__ import annotations

from collections.abc import Mapping
from contextlib import suppress
from fractions import Fraction
from typing import TYPE_CHECKING, Any, Optional, Union

from .journal import RESERVED
from .process import Process
from .refusals import Refused
from .spelling import Spelling
from .values import Value, read

if TYPE_CHECKING:
    from .session import Session

TRIAL = f"{RESERVED}trial"
MaybeScenario = Union["Scenario", str, None]


class Scenario:
    """A list of replacements by name, made by `Workbook.scenario`.

    >>> from whatif import Workbook
    >>> with Workbook() as book:
    ...     book["B1"] = 250
    ...     winter = book.scenario("winter", {"B1": 400})
    ...     book.compare(None, winter, "B1")[0].by
    Fraction(150, 1)
    """

    def __init__(self, process: Process, spelling: Spelling, name: str) -> None:
        self._process = process
        self._spelling = spelling
        self.name = name

    def __repr__(self) -> str:
        return f"<Scenario {self.name}>"

    def replace(self, cells: Mapping[str, Any]) -> None:
        """Puts these values in the place of these cells."""
        for line in replacing(self.name, cells, self._spelling):
            self._process.send(line)

    def restore(self, address: str) -> None:
        """Takes the replacement of a cell away."""
        self._process.send(f"scenario {self.name} {address}")

    def base_on(self, other: MaybeScenario) -> None:
        """Takes the replacements of another scenario too, or of none."""
        self._process.send(f"base {self.name} {name_of(other)}")

    def drop(self) -> None:
        """Removes the scenario; refused (E12) if a session uses it or another is based on it."""
        self._process.send(f"drop {self.name}")


class Trial:
    """A scenario for the time of some questions, based on the one in use."""

    def __init__(self, session: Session, process: Process, spelling: Spelling) -> None:
        self._session = session
        self._process = process
        self._spelling = spelling
        process.make_ready()
        self._before = session.scenario_in_use or ""
        self._is_begun = False

    def __enter__(self) -> Trial:
        return self

    def __exit__(self, kind: Optional[type[BaseException]], *_: object) -> None:
        if not self._is_begun:
            return
        end = (f"use {self._before}", f"drop {TRIAL}")
        if kind is not None and not issubclass(kind, Exception):
            self._process.later(self._session.name, *end)  # an interrupt: the last question isn't answered yet
            self._process.journal.in_use[self._session.name] = self._before or None
            return
        for line in end:
            with suppress(Refused):
                self._session.command(line)

    def put(self, cells: Mapping[str, Any]) -> None:
        """Puts these values in; each time the same cells."""
        lines = replacing(TRIAL, cells, self._spelling)
        if not self._is_begun:
            self._is_begun = True
            lines[1:1] = [f"base {TRIAL} {self._before}", f"use {TRIAL}"]
        for line in lines:
            self._session.command(line)

    def ask(self, result: str, cells: Mapping[str, Any]) -> Value:
        """What a cell shows with these values."""
        self.put(cells)
        return self.show(result)

    def show(self, result: str) -> Value:
        return read(self._session.show(result)[0][0])

    def ask_number(self, result: str, cells: Mapping[str, Any]) -> Fraction:
        value = self.ask(result, cells)
        if not isinstance(value, Fraction):
            raise ValueError(f"{result} shows {value} with {dict(cells)}: no number")
        return value


def replacing(scenario: str, cells: Mapping[str, Any], spelling: Spelling) -> list[str]:
    """The commands that replace these cells; all values are looked at before any is sent."""
    return [f"scenario {scenario} {address} {spelling.replacement(value, address)}" for address, value in cells.items()]


def name_of(scenario: MaybeScenario) -> str:
    """The name of a scenario, or the empty one of the sheet as it stands."""
    return scenario.name if isinstance(scenario, Scenario) else scenario or ""


def told(scenario: Optional[str]) -> str:
    """How a scenario is called in an answer."""
    return scenario or "sheet"
