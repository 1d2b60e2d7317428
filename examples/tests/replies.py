"""Reads a script and its replies, and pairs each command with what was answered."""

from dataclasses import dataclass

from tests import ROOT
from whatif_tools.program import parted, whole_replies
from whatif_tools.script import commands, lines_of

EXAMPLES = ROOT / "examples"


@dataclass(frozen=True)
class Reply:
    """What one command was answered: its records, and the refusal or None."""

    command: str
    records: list[list[str]]
    refusal: str | None = None


def commands_of(script: str) -> list[str]:
    """The commands of a script, without comments, empty lines and the data lines of a csv.

    >>> commands_of("# a table\\ncsv A1 1\\n1,2\\nshow A1")
    ['csv A1 1', 'show A1']
    """
    return [command.text for command in commands(lines_of(script.encode()))]


def replies_of(script: str, written: str) -> list[Reply]:
    """Each command of a script with its reply. A count of replies that isn't that of the commands is an error."""
    asked, rest = commands_of(script), whole_replies(written.encode())[1]
    replies = parted(written.encode())
    if len(asked) != len(replies) or rest:
        raise ValueError(f"{len(asked)} commands and {len(replies)} replies, and behind these {rest[:40]!r}")
    return [Reply(command, reply.records(), None if reply.end == "ok" else reply.end.removeprefix("refused ")) for command, reply in zip(asked, replies)]


class Example:
    """An example by its name: its replies as they are stored beside it."""

    def __init__(self, name: str) -> None:
        self.script = (EXAMPLES / f"{name}.whatif").read_text()
        self.replies = replies_of(self.script, (EXAMPLES / f"{name}.out").read_bytes().decode())

    def records(self, command: str, nth: int = 0) -> list[list[str]]:
        """The records of the nth command that is written like this."""
        return [reply.records for reply in self.replies if reply.command == command][nth]

    def labels(self, command: str, nth: int = 0) -> dict[str, str]:
        """The records of two fields as label and value."""
        return {label: value for label, value in self.records(command, nth)}

    def refusals(self) -> list[tuple[str, str]]:
        """The commands that were refused, each with its code."""
        return [(reply.command, reply.refusal) for reply in self.replies if reply.refusal is not None]
