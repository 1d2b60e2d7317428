"""A workbook with its sessions and scenarios."""

from __future__ import annotations

import os
from collections.abc import Mapping
from datetime import date
from pathlib import Path
from typing import Any, Optional

from .answers import Answer
from .drawing import Part, report
from .process import Process
from .reader import Reader
from .refusals import Refused
from .scenario import MaybeScenario, Scenario
from .script import commands_of
from .session import Session
from .spelling import Spelling
from .whole import write_whole


class Workbook(Session):
    """A workbook, which is also its first session, `main`. It ends with its `with`, or by `close`.

    The program is the one given, else that of the environment variable WHATIF, else `whatif` on the path. A float is taken with 15
    digits, or as many as `digits` says; a date is put as the days since `epoch`, and refused without one.

    with Workbook() as book:
        book["B1"] = 250
    """

    def __init__(self, program: Optional[str] = None, keep: Optional[int] = None, digits: int = 15, epoch: Optional[date] = None) -> None:
        self.program = program or os.environ.get("WHATIF") or "whatif"
        self.spelling = Spelling(digits, epoch)
        process = Process([self.program] if keep is None else [self.program, "--keep", str(keep)])
        super().__init__(process, Reader(process), self.spelling, "main")

    @staticmethod
    def open(path: str | Path, program: Optional[str] = None, **more: Any) -> Workbook:
        """A workbook with the script in a file.

        with Workbook.open("model.whatif") as book: print(book["B4"])
        """
        book = Workbook(program, **more)
        try:
            book.load(path)
        except BaseException:
            book.close()
            raise
        return book

    def __enter__(self) -> Workbook:
        return self

    def __exit__(self, *_: object) -> None:
        self.close()

    def close(self) -> int:
        """Ends the program; its exit status."""
        return self._process.close()

    @property
    def lines(self) -> int:
        """How many lines the program was sent; it takes 1,000,000."""
        return self._process.lines

    def session(self, name: str) -> Session:
        """The session of that name, made when it first does something. There are 64, with `main` and the client's own."""
        return Session(self._process, self._reader, self._spelling, name)

    def scenario(self, name: str, cells: Mapping[str, Any], base: MaybeScenario = None) -> Scenario:
        """A scenario with these replacements, based on another or on none.

        book.scenario("winter", {"B1": 400})
        """
        if not cells:
            raise ValueError("a scenario has a replacement at least")
        is_new = name not in self._process.journal.scenarios
        scenario = Scenario(self._process, self._spelling, name)
        scenario.replace(cells)
        if base is not None or not is_new:
            scenario.base_on(base)
        return scenario

    # Scripts

    def run(self, script: str) -> list[list[list[str]]]:
        """Runs a script from session `main` on, and gives the records of each command. `Refused.line` says where it ended.

        book.run("set A1 1\\nshow A1\\n")   # [[], [["1"]]]
        """
        self._process.make_ready()
        if self._process.journal.session != self.name:
            self._process.send(f"as {self.name}")
        answers = []
        for number, line, data in commands_of(script):
            try:
                answers.append(self._process.send(line, data))
            except Refused as refused:
                raise Refused(refused.reply, line, self._process.journal.scenarios, number) from None
        return answers

    def load(self, path: str | Path) -> list[list[list[str]]]:
        """Runs the script in a file."""
        return self.run(Path(path).read_bytes().decode())

    def script(self) -> str:
        """The script of all edits that were accepted, scenarios too, in their order: it makes the same workbook. It has no questions, and
        none of the comments of a script that was loaded."""
        return self._process.journal.script()

    def save(self, path: str | Path) -> None:
        """Writes `script()` into a file, which is there when it is whole."""
        write_whole(Path(path), self.script().encode())

    def report(self, path: str | Path, *answers: Answer, title: str = "A workbook") -> None:
        """Writes a page to look at, in one file: what was answered, in this order, and then the sheet as it is.

        book.report("bill.html", book.table("B4", "B1", [250, 400]), book.compare(None, "winter", "B1:B4"), title="A tariff")
        """
        parts = [Part(answer.axes().caption, answer.drawn()) for answer in (*answers, self.page())]
        write_whole(Path(path), report(title, parts).encode())
