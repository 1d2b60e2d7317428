"""Tables of worked scripts: files NAME.cases, each of many scripts with their replies, as README.md tells."""

import re
from collections.abc import Iterator
from dataclasses import dataclass, field
from pathlib import Path

PIECE = re.compile(rb"\{([0-9]+) of ([^}]*)\}|[^{]+")
ESCAPE = re.compile(rb"\\(?:n|r|x([0-9a-f]{2}))")
NUMBERS = re.compile(rb"([0-9]+)\.\.([0-9]+)")
PLACE = re.compile(rb"#([+-]1)?")
REPLY = re.compile(rb"<([0-9.]*) (.*)")
FAULT = re.compile(rb"@fault ([0-9]+) (.+)")


@dataclass
class Turn:
    """Bytes of a script, and the reply to what ends with them."""

    given: bytes = b""
    reply: bytes = b""


@dataclass
class Script:
    """A script with its replies, and how it ends."""

    title: str
    turns: list[Turn] = field(default_factory=lambda: [Turn()])
    status: int = 0
    fault: bytes = b""
    is_large: bool = False

    @property
    def given(self) -> bytes:
        return b"".join(turn.given for turn in self.turns)

    @property
    def replies(self) -> bytes:
        return b"".join(turn.reply for turn in self.turns)

    def give(self, given: bytes) -> None:
        """Bytes behind a reply begin another turn."""
        if self.turns[-1].reply:
            self.turns.append(Turn())
        self.turns[-1].given += given

    def answer(self, reply: bytes) -> None:
        self.turns[-1].reply += reply

    def take(self, line: bytes) -> None:
        """Takes a line of the table."""
        reply, fault = REPLY.fullmatch(line), FAULT.fullmatch(line)
        if reply:
            self.answer(replied(reply[1], reply[2]))
        elif fault:
            self.status, self.fault = int(fault[1]), fault[2]
        elif line == b"@large":
            self.is_large = True
        elif line.startswith(b"@bytes "):
            self.give(spelled(line.removeprefix(b"@bytes ")))
        elif line.startswith(b"@rows "):
            _, numbers, row = line.split(b" ", 2)
            self.give(b"".join(b"%s\n" % text for text in numbered(numbers, row)))
        elif line.startswith((b"@", b"<")):
            raise ValueError(f"{self.title}: {line!r} is no line of a table")
        else:
            self.give(b"%s\n" % line)


def escaped(match: re.Match[bytes]) -> bytes:
    return bytes.fromhex(match[1].decode()) if match[1] else {b"\\n": b"\n", b"\\r": b"\r"}[match[0]]


def spelled(text: bytes) -> bytes:
    """The bytes that a text spells."""
    pieces = PIECE.finditer(text)
    return b"".join(ESCAPE.sub(escaped, piece[2]) * int(piece[1]) if piece[1] else ESCAPE.sub(escaped, piece[0]) for piece in pieces)


def numbered(numbers: bytes, line: bytes) -> Iterator[bytes]:
    """A line for each number, which stands in the place of #."""
    match = NUMBERS.fullmatch(numbers)
    if not match:
        raise ValueError(f"{numbers!r} are no numbers")
    *fronts, last = re.split(rb"#(?:[+-]1)?", line)
    steps = [int(step or 0) for step in PLACE.findall(line)]
    for number in range(int(match[1]), int(match[2]) + 1):
        yield b"".join(b"%s%d" % (front, number + step) for front, step in zip(fronts, steps)) + last


def replied(times: bytes, text: bytes) -> bytes:
    """The lines of a reply that one line of a table tells: one, so many equal ones, or one for each number."""
    if b"." in times:
        return b"".join(b"%s\n" % line for line in numbered(times, spelled(text)))
    return b"%s\n" % spelled(text) * int(times or 1)


def scripts(table: Path) -> list[Script]:
    """The scripts of a table; what stands before the first of them is its head."""
    found: list[Script] = []
    for line in table.read_bytes().removesuffix(b"\n").split(b"\n"):
        if line.startswith(b"== "):
            found.append(Script(line.removeprefix(b"== ").decode()))
        elif found:
            found[-1].take(line)
    return found


def paired(script: Path) -> Script:
    """A script in a file of its own, with its replies in another."""
    return Script(script.stem, [Turn(script.read_bytes(), script.with_suffix(".out").read_bytes())])
