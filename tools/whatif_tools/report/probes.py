"""A script with questions of the page's own behind some of its commands, whose answers are parted from the script's."""

from collections.abc import Mapping, Sequence
from dataclasses import dataclass, field

from ..program import Reply, run
from ..script import Command, data_lines, lines_of

MOST_LINES = 1_000_000
"""The program reads no more in one run."""


@dataclass(frozen=True)
class Source:
    """A script, its commands, and the replies that it has by itself."""

    script: bytes
    commands: Sequence[Command]
    replies: Sequence[Reply]

    def may_have_behind(self, at: int) -> bool:
        """Whether lines behind a command are commands: a `csv` that lacks data lines would take them."""
        command = self.commands[at]
        return len(command.data) == data_lines(command.raw)

    def ask(self, behind: Mapping[int, Sequence[str]]) -> dict[int, list[Reply]]:
        """The replies to lines behind the commands of these numbers.

        It is empty where the run is too long, or where the script itself was answered otherwise than without them.
        """
        places = sorted(at for at in behind if at < len(self.replies) and self.may_have_behind(at))
        lines, count = self.with_lines(behind, places) if places else (b"", 0)
        if not places or count > MOST_LINES:
            return {}
        replies = run(lines).replies
        answer = Parted(list(self.replies))
        answer.part(replies, {at: len(behind[at]) for at in places})
        return answer.probes if answer.is_same else {}

    def with_lines(self, behind: Mapping[int, Sequence[str]], places: Sequence[int]) -> tuple[bytes, int]:
        """The script with the lines in it, and how many lines it has then."""
        lines = lines_of(self.script)
        parts: list[bytes] = []
        start = 0
        for at in places:
            command = self.commands[at]
            end = command.line + len(command.data)
            parts += lines[start:end]
            parts += [line.encode() for line in behind[at]]
            start = end
        parts += lines[start:]
        return b"".join(part + b"\n" for part in parts), len(parts)


@dataclass
class Parted:
    """The replies of a run with probes, those of the script compared with what it has been answered before."""

    own: list[Reply]
    probes: dict[int, list[Reply]] = field(default_factory=dict)
    is_same: bool = True

    def part(self, replies: Sequence[Reply], counts: Mapping[int, int]) -> None:
        place = 0
        for at, expected in enumerate(self.own):
            self.is_same = self.is_same and place < len(replies) and replies[place] == expected
            place += 1
            if at in counts:
                self.probes[at] = list(replies[place : place + counts[at]])
                place += counts[at]
        self.is_same = self.is_same and place == len(replies)
