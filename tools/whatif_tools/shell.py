"""What the shell does with a line: it sends it as a command, says what was answered, and keeps what was accepted."""

import signal
import threading
from collections.abc import Callable
from dataclasses import dataclass, field
from pathlib import Path

from whatif import Ended, Refused, Workbook

from .aligned import table_of
from .contents import content_findings
from .finding import Finding, excerpt
from .program import Help, Reply
from .refusals import refused
from .scenarios import Scenarios, hidden, new_names
from .script import Command, commands, data_lines, lines_of

ASKS = ("show", "export", "table", "compare", "formula")
"""Commands that change nothing, so that undo passes over them."""

OWN_WORDS = {
    "help": "lists the commands",
    "load FILE": "runs the script in a file, line by line",
    "save FILE": "writes what was accepted so far as a script; save! writes over a file that is there",
    "undo": "takes the last change back, by running all before it again",
    "quit": "ends, as Ctrl-D does",
}


class Leave(Exception):
    """The shell is to end."""


@dataclass
class Shell:
    """A workbook and what was accepted; what is said goes to `say`."""

    program: str
    help: Help
    book: Workbook = field(init=False)
    session: str = "main"
    accepted: list[Command] = field(default_factory=list)
    scenarios: Scenarios = field(default_factory=Scenarios)
    said: list[str] = field(default_factory=list)

    def __post_init__(self) -> None:
        self.book = opened(self.program)

    def say(self, text: str) -> None:
        self.said.append(text)

    def told(self) -> str:
        """What was said since this was asked last."""
        text = "".join(self.said)
        self.said.clear()
        return text

    def prompt(self) -> str:
        scenario = self.scenarios.in_use
        return f"{self.session}/{scenario}> " if scenario else f"{self.session}> "

    @staticmethod
    def lines_wanted(line: str) -> int:
        """How many lines of data a line wants behind it."""
        return data_lines(line.encode())

    def take(self, line: str, data: tuple[str, ...] = ()) -> None:
        """Does what a line says; a word of the shell's own, or a command with its data lines."""
        words = line.split()
        if not words or line.startswith("#"):
            return
        own = self.own_words().get(words[0])
        if own is not None:
            own(words)
        else:
            for command in commands([line.encode(errors="replace"), *(row.encode(errors="replace") for row in data)]):
                self.run(command)

    def own_words(self) -> dict[str, Callable[[list[str]], None]]:
        """What the shell does itself, by the first word of a line."""
        return {
            **dict.fromkeys(("help", "?"), self.do_help),
            **dict.fromkeys(("save", "save!"), self.do_save),
            **dict.fromkeys(("quit", "exit"), self.do_quit),
            "load": self.do_load,
            "undo": self.do_undo,
        }

    def run(self, command: Command, is_quiet: bool = False) -> bool:
        """Sends a command; whether it was accepted. A quiet one is heard of only where it is refused."""
        try:
            records = self.send(command)
        except Refused as no:
            finding = refused(command, Reply((), f"refused {no.reply}"), self.help, self.scenarios)
            self.say(f"{finding.message}\n{excerpt(command.text, finding.column - 1)}")
            return False
        except ValueError as error:
            self.say(f"{error}\n")
            return False
        except Ended as end:
            self.say(f"{end}\n")
            raise Leave from end
        if not is_quiet:
            self.say(table_of(command, records) or "ok\n")
            for finding in self.doubts(command):
                self.say(f"{finding.message}\n")
        self.accept(command)
        return True

    def send(self, command: Command) -> list[list[str]]:
        data = b"".join(row + b"\n" for row in command.data)
        return self.book.session(self.session).command(command.text, data)

    def accept(self, command: Command) -> None:
        self.accepted.append(command)
        self.scenarios.accept(command)
        if command.name == "as":
            self.session = command.words[1]

    def doubts(self, command: Command) -> list[Finding]:
        """What an accepted command was perhaps meant to be."""
        return [*content_findings(command), *hidden(command, self.scenarios), *new_names(command, self.scenarios, set())]

    # Words of its own

    def do_help(self, _: list[str]) -> None:
        forms = [form for forms in self.help.forms.values() for form in forms]
        self.say("".join(f"  {form}\n" for form in forms))
        self.say("".join(f"  {word:<12}{what}\n" for word, what in OWN_WORDS.items()))

    def do_quit(self, _: list[str]) -> None:
        raise Leave

    def do_load(self, words: list[str]) -> None:
        """Runs a script; a line that is refused is said, and the others are run."""
        if len(words) != 2:
            self.say("load FILE runs a script\n")
            return
        try:
            script = Path(words[1]).read_bytes()
        except OSError as error:
            self.say(f"{words[1]}: {error.strerror}\n")
            return
        found = list(commands(lines_of(script)))
        refusals = 0
        for command in found:
            before = len(self.said)
            if not self.run(command, is_quiet=True):
                self.said.insert(before, f"{words[1]}:{command.line}: ")
                refusals += 1
        self.say(f"{words[1]}: {len(found)} commands" + (f", of which {refusals} were refused\n" if refusals else "\n"))

    def do_save(self, words: list[str]) -> None:
        if len(words) != 2:
            self.say("save FILE writes the script so far\n")
            return
        try:
            with open(words[1], "wb" if words[0] == "save!" else "xb") as file:
                file.write(self.script())
        except FileExistsError:
            self.say(f"{words[1]} is there already: save! {words[1]} writes over it\n")
        except OSError as error:
            self.say(f"{words[1]}: {error.strerror}\n")
        else:
            self.say(f"{len(self.accepted)} commands are in {words[1]}\n")

    def script(self) -> bytes:
        return b"".join(row + b"\n" for command in self.accepted for row in (command.raw, *command.data))

    def do_undo(self, _: list[str]) -> None:
        """Runs all but the last change again, in a new workbook."""
        at = next((at for at in reversed(range(len(self.accepted))) if self.accepted[at].name not in ASKS), None)
        if at is None:
            self.say("there is nothing to take back\n")
            return
        last = self.accepted[at]
        self.begin_again(self.accepted[:at])
        self.say(f"taken back: {last.text}\n")

    def interrupted(self) -> None:
        """After a question that was interrupted: its workbook is left to end by itself, and a new one is where that was."""
        self.begin_again(list(self.accepted))
        self.say("interrupted; all that was accepted before stands\n")

    def begin_again(self, kept: list[Command]) -> None:
        """Runs commands again in a new workbook, but for those that only ask."""
        threading.Thread(target=self.close, args=(self.book,), daemon=True).start()
        self.book, self.session, self.accepted, self.scenarios = opened(self.program), "main", [], Scenarios()
        for command in kept:
            if command.name not in ASKS:
                self.send(command)
            self.accept(command)

    @staticmethod
    def close(book: Workbook) -> None:
        try:
            book.close()
        except OSError:
            pass


def opened(program: str) -> Workbook:
    """A workbook whose program Ctrl-C at the terminal doesn't end."""
    before = signal.signal(signal.SIGINT, signal.SIG_IGN)
    try:
        return Workbook(program)
    finally:
        signal.signal(signal.SIGINT, before)
