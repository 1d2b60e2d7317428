"""Counts what random scripts meet: commands, refusals, functions and the values of formulas that are shown."""

from collections import Counter
from collections.abc import Iterator
from contextlib import contextmanager
from dataclasses import dataclass, field
from unittest import mock

from tests.differential.generate import script
from tests.reference import functions, whatif
from tests.reference.grammar import Tree
from tests.reference.sheet import Cell, Formula, Sheet
from tests.reference.values import Error, Value
from tests.reference.workbook import Workbook

COMMANDS = ["set", "clear", "fill", "csv", "show", "export", "table", "scenario", "base", "drop", "use", "as", "changes", "compare", "force", "formula"]
CODES = ["E02", "E03", "E04", "E05", "E06", "E07", "E08", "E10", "E11", "E12", "E13", "E14", "E15", "E16", "E18", "E19"]


@dataclass
class Census:
    scripts: int = 0
    lines: int = 0
    replies: int = 0
    commands: Counter[str] = field(default_factory=Counter)
    refusals: Counter[str] = field(default_factory=Counter)
    calls: Counter[str] = field(default_factory=Counter)
    good_calls: Counter[str] = field(default_factory=Counter)
    shown: Counter[str] = field(default_factory=Counter)
    what_ifs: int = 0

    def add(self, made: bytes) -> None:
        self.scripts += 1
        self.lines += len(whatif.lines_of(made))
        served = whatif.Script()
        for command in whatif.commands_of(made):
            reply = served.reply(command)
            if reply is None:
                continue
            self.replies += 1
            words = command.line.split()
            self.commands[words[0].decode(errors="replace") if words else ""] += 1
            if reply.startswith("refused"):
                self.refusals[reply.split()[1]] += 1

    @contextmanager
    def counting(self) -> Iterator[None]:
        """Counts the calls and the shown values of what the reference does meanwhile."""
        called, shown_in, what_if = functions.called, Workbook.shown_in, Sheet.what_if

        def counted_call(sheet: Sheet, name: str, trees: tuple[Tree, ...]) -> Value:
            self.calls[name] += 1
            value = called(sheet, name, trees)
            self.good_calls[name] += not isinstance(value, Error)
            return value

        def counted_shown(book: Workbook, scenario: str | None, cell: Cell) -> Value:
            value = shown_in(book, scenario, cell)
            if isinstance(book.sheet.contents.get(cell), Formula):
                self.shown[value.name if isinstance(value, Error) else "no error"] += 1
            return value

        def counted_what_if(sheet: Sheet, cell: Cell, pairs: list[tuple[Cell, Cell]]) -> Value:
            self.what_ifs += 1
            return what_if(sheet, cell, pairs)

        with (
            mock.patch.object(functions, "called", counted_call),
            mock.patch.object(Workbook, "shown_in", counted_shown),
            mock.patch.object(Sheet, "what_if", counted_what_if),
        ):
            yield

    def missing(self) -> list[str]:
        """What no script met."""
        found = [f"the command {name}" for name in COMMANDS if not self.commands[name]]
        found += [f"the refusal {code}" for code in CODES if not self.refusals[code]]
        return found + [f"the function {name}" for name in functions.FUNCTIONS if not self.good_calls[name] and name != "NA"]

    def __str__(self) -> str:
        refused, shown = sum(self.refusals.values()), sum(self.shown.values())
        return "\n".join(
            [
                f"scripts {self.scripts}, lines {self.lines}, replies {self.replies}, what-ifs {self.what_ifs}",
                f"refused {100 * refused / max(1, self.replies):.1f} % of the commands: {counts(self.refusals)}",
                f"shown formula values {shown}, no error {100 * self.shown['no error'] / max(1, shown):.1f} %: {counts(self.shown)}",
                f"commands: {counts(Counter({name: self.commands[name] for name in COMMANDS}))}",
                "functions (calls without an error/calls): "
                + ", ".join(f"{name} {self.good_calls[name]}/{self.calls[name]}" for name in functions.FUNCTIONS),
                "met by no script: " + (", ".join(self.missing()) or "nothing"),
            ]
        )


def counts(counter: Counter[str]) -> str:
    return ", ".join(f"{name} {count}" for name, count in counter.most_common())


def census(seed: int, scripts: int, lines: int) -> Census:
    found = Census()

    def count() -> None:
        with found.counting():
            for number in range(scripts):
                found.add(script(seed, number, lines))

    whatif.in_deep_thread(count)
    return found
