"""The lines of a script: which are commands, which are data, and which have no reply."""

import re
from collections.abc import Iterator
from dataclasses import dataclass

from .sheet import Address, Rectangle

LONGEST_LINE = 65_536
MOST_DATA_LINES = 1_000_000
BYTE_ORDER_MARK = b"\xef\xbb\xbf"
MARK = b"#!"

CONTENT = re.compile(r" *(?:force +)?(?:set +[^ ]+|scenario +[^ ]+ +[^ ]+) (.+)", re.DOTALL)
CELL_BEGINS = "[A-Za-z]+[1-9]"
CELL = f"{CELL_BEGINS}[0-9]*"
COMMAND = re.compile(
    rf"(?:force )?(?:set {CELL} .|clear {CELL_BEGINS}|fill {CELL} [A-Za-z]|csv {CELL} [0-9]|show {CELL_BEGINS}|export {CELL_BEGINS}"
    rf"|table {CELL} [A-Za-z]|scenario \w+ {CELL_BEGINS}|base \w+|drop \w+$|use \w+$|as \w+$|compare |formula {CELL_BEGINS}|changes$|use$)"
)


@dataclass(frozen=True)
class Command:
    """A line that is answered, with the data lines behind it; lines are counted from 1."""

    line: int
    raw: bytes
    data: tuple[bytes, ...]
    mark: str = ""
    """What a comment `#! ..` right above it says."""

    is_cut: bool = False
    """Whether the script ends before its last data line."""

    @property
    def last_line(self) -> int:
        return self.line + len(self.data)

    @property
    def text(self) -> str:
        return self.raw.decode(errors="replace")

    @property
    def words(self) -> list[str]:
        """The words, without `force`."""
        words = [word for word in self.text.split(" ") if word]
        return words[1:] if words[:1] == ["force"] else words

    @property
    def name(self) -> str:
        return self.words[0] if self.words else ""

    @property
    def content(self) -> str | None:
        """What a `set` or a `scenario` puts in."""
        found = CONTENT.fullmatch(self.text)
        return None if found is None else found[1]

    @property
    def content_place(self) -> int:
        """Where the content begins in the line, counted from 0."""
        found = CONTENT.fullmatch(self.text)
        return 0 if found is None else found.start(1)

    def word_place(self, word: str) -> int:
        """Where a word stands in the line, counted from 0."""
        found = re.search(rf"(?:^| ){re.escape(word)}(?= |$)", self.text)
        return 0 if found is None else found.end() - len(word)

    def target(self) -> Rectangle | None:
        """The cells that an accepted `set` or `fill` puts something into."""
        if self.name == "set":
            return Rectangle.parse(self.words[1])
        return Rectangle.parse(self.words[2]) if self.name == "fill" and len(self.words) > 2 else None


def is_utf8(line: bytes) -> bool:
    try:
        line.decode()
    except UnicodeDecodeError:
        return False
    return True


def lines_of(script: bytes) -> list[bytes]:
    """The lines without their LF; the last may lack it."""
    lines = script.split(b"\n")
    return lines[:-1] if lines[-1] == b"" else lines


def is_passed_over(line: bytes) -> bool:
    """Whether a line has no reply: it is empty, has only spaces or begins with `#`, and is neither too long nor bad UTF-8."""
    is_comment = not line.removesuffix(b"\r").strip(b" ") or line.startswith(b"#")
    return is_comment and len(line) <= LONGEST_LINE and is_utf8(line)


def data_lines(line: bytes) -> int:
    """How many lines behind this one are its data."""
    words = [word for word in line.removesuffix(b"\r").split(b" ") if word]
    words = words[1:] if words[:1] == [b"force"] else words
    is_csv = len(words) == 3 and words[0] == b"csv" and re.fullmatch(rb"[0-9]{1,7}", words[2]) is not None
    if not is_csv or len(line) > LONGEST_LINE or int(words[2]) > MOST_DATA_LINES:
        return 0
    return int(words[2])


def commands(lines: list[bytes]) -> Iterator[Command]:
    """The lines that are answered, in order."""
    at, mark = 0, ""
    while at < len(lines):
        line = lines[at]
        at += 1
        if is_passed_over(line):
            mark = line.removeprefix(MARK).decode().strip() if line.startswith(MARK) else ""
            continue
        data = tuple(lines[at : at + data_lines(line)])
        yield Command(at, line.removesuffix(b"\r"), data, mark, len(data) < data_lines(line))
        at, mark = at + len(data), ""


def looks_like_command(line: str) -> bool:
    return COMMAND.match(line) is not None


def address_of(command: Command) -> Address | None:
    """The cell that a `set` names."""
    return Address.parse(command.words[1]) if command.name == "set" and len(command.words) > 1 else None
