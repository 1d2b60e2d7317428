"""What is found in a script: where a command was refused and why, what was meant otherwise, and where errors start."""

import re
import sys
from collections.abc import Iterator
from dataclasses import dataclass, field
from functools import cached_property
from itertools import groupby
from pathlib import Path

from .contents import content_findings
from .csv_findings import data_findings
from .cures import Values
from .errors import ASK, ErrorCell, advice, error_cells, starts, values_in
from .finding import Finding, Kind
from .grid import Content, Grid
from .labels import labelled, names_in
from .marks import as_meant
from .program import Answer, Help, Reply, program_help, run
from .refusals import refused
from .reply_errors import reply_findings
from .scenarios import Scenarios, hidden, names_asked_for, new_names
from .script import BYTE_ORDER_MARK, Command, commands, lines_of
from .sheet import Address
from .what_ifs import table_findings, what_if_findings

UTF_16 = (b"\xff\xfe", b"\xfe\xff")
STANDARD_INPUT = Path("-")


@dataclass
class Check:
    """One script, its commands, and the program's answer; `loaded` is the one that is run before it."""

    path: Path
    script: bytes
    help: Help
    loaded: "Check | None" = None
    commands: list[Command] = field(default_factory=list)
    answer: Answer = field(default_factory=lambda: Answer([], 0, ""))

    @classmethod
    def of(cls, path: Path, loaded: "Check | None" = None) -> "Check":
        script = sys.stdin.buffer.read() if path == STANDARD_INPUT else path.read_bytes()
        check = cls(path, script, program_help(), loaded, list(commands(lines_of(script))))
        check.answer = check.asked(b"")
        return check

    def asked(self, further: bytes) -> Answer:
        """The answer to the script, and to further commands behind it; a csv that lacks lines would take these."""
        script = self.script
        if further:
            last = self.commands[-1] if self.commands else None
            whole = lines_of(script)
            is_cut = last is not None and last.name == "csv" and last.last_line == len(whole)
            script = b"\n".join([*(whole[: last.line - 1] if is_cut and last is not None and self.lacks_lines else whole), further])
        answer = run(script, None if self.loaded is None else self.loaded.path)
        before = 0 if self.loaded is None else len(self.loaded.answer.replies)
        return Answer(answer.replies[before:], answer.status, answer.fault)

    @property
    def lacks_lines(self) -> bool:
        return bool(self.answer.replies) and self.answer.replies[-1].code == "E13"

    @cached_property
    def shown(self) -> Reply:
        """What cells show at the end, in no scenario; nothing where the program has ended before."""
        answer = self.asked(ASK) if self.answer.status == 0 else self.answer
        return answer.replies[-1] if answer.status == 0 and answer.replies else Reply((), "ok")

    @cached_property
    def names(self) -> dict[Address, str]:
        """The names of cells that comments have, of the loaded script too."""
        return {**({} if self.loaded is None else self.loaded.names), **names_in(self.script)}

    @cached_property
    def values(self) -> Values:
        return values_in(self.shown)

    @cached_property
    def errors(self) -> dict[Address, ErrorCell]:
        """The cells that show an error at the end, in no scenario."""
        return error_cells(self.shown, lambda further: self.asked(further).replies)

    def findings(self) -> list[Finding]:
        """All that is found, by lines."""
        if self.script.startswith(UTF_16) or is_wide(self.script):
            return [Finding(1, 1, Kind.ENCODING, "the script is UTF-16: save it as UTF-8, or iconv -f UTF-16 -t UTF-8")]
        found = [*self.marks(), *self.of_commands(), *self.without_reply(), *self.error_findings()]
        return sorted(as_meant(found, self.commands, self.answer.replies), key=lambda finding: (finding.line, finding.column))

    def marks(self) -> Iterator[Finding]:
        if self.script.startswith(BYTE_ORDER_MARK):
            message = "the script begins with a byte order mark: save it as UTF-8 without one, or sed -i '1s/^\\xEF\\xBB\\xBF//'"
            yield Finding(1, 1, Kind.ENCODING, message)

    def of_commands(self) -> Iterator[Finding]:
        scenarios, grid = self.state_before()
        asked_for, in_error = names_asked_for(self.commands), set(self.errors)
        covered: dict[Address, tuple[Command, Content]] = {}
        for command, reply in zip(self.commands, self.answer.replies):
            if reply.code is not None:
                yield refused(command, reply, self.help, scenarios)
            else:
                yield from content_findings(command)
                yield from hidden(command, scenarios)
                yield from new_names(command, scenarios, asked_for)
                yield from table_findings(command, reply, grid)
                yield from reply_findings(command, reply, scenarios.in_use, in_error)
                scenarios.accept(command)
                covered.update((address, (command, content)) for address, content in grid.accept(command))
            yield from data_findings(command)
        yield from over_formulas(covered, grid, self.names)
        yield from what_if_findings(grid)

    def state_before(self) -> tuple[Scenarios, Grid]:
        """What the script begins with: nothing, or what the loaded one has made."""
        scenarios, grid = Scenarios(), Grid()
        if self.loaded is not None:
            for command, reply in zip(self.loaded.commands, self.loaded.answer.replies):
                if reply.code is None:
                    scenarios.accept(command)
                    grid.accept(command)
        return scenarios, grid

    def without_reply(self) -> Iterator[Finding]:
        """Where the program ended before the script did."""
        count = len(self.answer.replies)
        if count < len(self.commands):
            why = f"no reply: the program ended before this line, with exit status {self.answer.status}"
            yield Finding(self.commands[count].line, 1, Kind.NO_REPLY, f"{why}; {self.answer.fault}" if self.answer.fault else why)

    def error_findings(self) -> Iterator[Finding]:
        """The cells in which errors start, those that are alike at once."""
        before = {} if self.loaded is None else self.loaded.errors
        new = [cell for cell in starts(self.errors) if before.get(cell.address) != cell]
        for _, group in groupby(sorted(new, key=likeness), key=likeness):
            first, *others = group
            more = f"; {len(others)} more of the column like it" if others else ""
            cure = advice(first, self.errors, self.values)
            said = f"{labelled(first.address, self.names)} shows {first.error}: {first.formula}{more}"
            yield Finding(self.line_of(first), 1, Kind.ERROR_STARTS, said if cure is None else f"{said}; {cure}", code=first.error)

    def line_of(self, cell: ErrorCell) -> int:
        """The line of the last accepted command that put something into the cell."""
        for command, reply in zip(reversed(self.commands), reversed(self.answer.replies[: len(self.commands)])):
            target = command.target() if reply.code is None else None
            if target is not None and cell.address in target:
                return command.line
        return 1

    def transcript(self) -> str:
        """Each command with its line, and its reply below it."""
        return "".join(numbered(command) + reply.text() for command, reply in zip(self.commands, self.answer.replies))


def is_wide(script: bytes) -> bool:
    """Whether a script without a mark is UTF-16: every second byte of its beginning is NUL."""
    start = script[:200]
    return len(start) > 3 and any(len(part) * 3 > len(start) and part.count(0) * 10 > 9 * len(part) for part in (start[::2], start[1::2]))


def over_formulas(covered: dict[Address, tuple[Command, Content]], grid: Grid, names: dict[Address, str]) -> Iterator[Finding]:
    """Constants that were put over formulas and still stand there at the end, those of one command at once."""
    left = {address: known for address, known in covered.items() if grid.at(address).formula is None and not grid.at(address).is_empty}
    for _, group in groupby(left.items(), key=lambda item: item[1][0].line):
        (address, (command, content)), *others = group
        more = f", and {len(others)} more" if others else ""
        message = f"{labelled(address, names)}{more} had a formula, {content.formula}, which is gone: scenario and table try values, and keep it"
        yield Finding(command.line, 1, Kind.OVER_FORMULA, message, command.text)


def likeness(cell: ErrorCell) -> tuple[int, str, str]:
    """What cells of one column have in common whose formulas were filled from one."""
    return cell.address.column, cell.error, re.sub("[0-9]+", "0", cell.formula)


def numbered(command: Command) -> str:
    lines = [command.raw, *command.data]
    return "".join(f"{command.line + i:6}  {line.decode(errors='replace').rstrip(chr(13))}\n" for i, line in enumerate(lines))
