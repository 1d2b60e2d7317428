"""A plain, slow `whatif`: reads a script on standard input and writes the replies, with every value found from nothing.

It was written from the definition in words, apart from the engine, and shares no code with it.
"""

import re
import sys
import threading
from collections.abc import Callable
from dataclasses import dataclass

from tests.reference.grammar import COLUMNS, ROWS, Refused, column_number
from tests.reference.sheet import Cell, Rectangle
from tests.reference.workbook import Workbook

LONGEST_LINE = 65_536
MOST_DATA_LINES = 1_000_000
MOST_LINES = 1_000_000
EDITS = ("set", "clear", "fill", "csv")

ADDRESS = re.compile(r"([A-Za-z]+)([1-9][0-9]*)", re.ASCII)
NAME = re.compile(r"[A-Za-z0-9_]{1,32}", re.ASCII)


# ---- lines


def lines_of(script: bytes) -> list[bytes]:
    """Each line with its LF; the last may lack it, and an empty rest is no line."""
    return re.findall(rb"[^\n]*\n|[^\n]+", script)


def without_end(line: bytes) -> bytes:
    return line.removesuffix(b"\n")


def split_word(text: str) -> tuple[str, str]:
    """The first word, and everything behind the one space that follows it."""
    word, _, rest = text.lstrip(" ").partition(" ")
    return word, rest


def data_lines_asked(line: bytes) -> int:
    """How many data lines a line takes: those of `csv`, any word and LINES, perhaps behind `force`."""
    if len(without_end(line)) > LONGEST_LINE:
        return 0
    words = [word for word in without_end(line).removesuffix(b"\r").split(b" ") if word]
    if words[:1] == [b"force"]:
        words = words[1:]
    if len(words) == 3 and words[0] == b"csv" and re.fullmatch(rb"[0-9]{1,7}", words[2]):
        count = int(words[2])
        return count if count <= MOST_DATA_LINES else 0
    return 0


@dataclass(frozen=True)
class Command:
    """A line, and the data lines that it takes."""

    line: bytes
    data: list[bytes]
    missing: int


def commands_of(script: bytes) -> list[Command]:
    lines, found, at = lines_of(script), [], 0
    while at < len(lines):
        asked = data_lines_asked(lines[at])
        data = lines[at + 1 : at + 1 + asked]
        found.append(Command(lines[at], data, asked - len(data)))
        at += 1 + len(data)
    return found


# ---- operands, each spelled by a word, whether the sheet has it or not


def address(word: str) -> Cell:
    spelled = ADDRESS.fullmatch(word)
    if not spelled:
        raise Refused("E02")
    return int(spelled[2]) - 1, column_number(spelled[1])


def rectangle(word: str) -> Rectangle:
    first, colon, second = word.partition(":")
    (top, left), (bottom, right) = address(first), address(second if colon else first)
    return min(top, bottom), min(left, right), max(top, bottom), max(left, right)


def name(word: str) -> str:
    if not NAME.fullmatch(word):
        raise Refused("E02")
    return word


def side(word: str) -> str | None:
    return None if word == "-" else name(word)


def is_outside(*operands: Cell | Rectangle) -> bool:
    return any(operand[-2] >= ROWS or operand[-1] >= COLUMNS for operand in operands)


def within(*operands: Cell | Rectangle) -> None:
    if is_outside(*operands):
        raise Refused("E04")


def words(text: str, *counts: int) -> list[str]:
    """The words of a text, one of these numbers of them."""
    found = text.split(" ")
    found = [word for word in found if word]
    if len(found) not in counts:
        raise Refused("E02")
    return found


# ---- commands


class Script:
    """Serves the commands of a script, one after another."""

    def __init__(self) -> None:
        self.book = Workbook()

    def replies(self, script: bytes) -> list[bytes]:
        """The reply to each command; lines that are passed over have none."""
        found = (self.reply(command) for command in commands_of(script))
        return [reply.encode() for reply in found if reply is not None]

    def reply(self, command: Command) -> str | None:
        try:
            records = self.served(command)
        except Refused as refusal:
            return f"refused {refusal}\n"
        return None if records is None else f"{records}ok\n"

    def served(self, command: Command) -> str | None:
        line = without_end(command.line)
        try:
            text = line.removesuffix(b"\r").decode()
        except UnicodeDecodeError:
            raise Refused("E03") from None
        if len(line) > LONGEST_LINE:
            raise Refused("E03")
        if text.startswith("#") or not text.strip(" "):
            return None
        word, rest = split_word(text)
        if word == "force":
            word, rest = split_word(rest)
            return self.edited(True, word, rest, command)
        if word in EDITS:
            return self.edited(False, word, rest, command)
        return self.looked(word, rest)

    def edited(self, force: bool, word: str, rest: str, command: Command) -> str:
        match word:
            case "set":
                return self.set(force, rest)
            case "clear":
                area = rectangle(words(rest, 1)[0])
                within(area)
                return self.book.clear(force, area)
            case "fill":
                first, second = words(rest, 2)
                source, area = address(first), rectangle(second)
                within(source, area)
                return self.book.fill(force, source, area)
            case "csv":
                return self.csv(force, rest, command)
        raise Refused("E02")

    def set(self, force: bool, rest: str) -> str:
        word, content = split_word(rest)
        cell = address(word)
        if not content:
            raise Refused("E02")
        within(cell)
        return self.book.set(force, cell, content)

    def csv(self, force: bool, rest: str, command: Command) -> str:
        if any(len(without_end(line)) > LONGEST_LINE for line in command.data):
            raise Refused("E03")
        first, count = words(rest, 2)
        cell = address(first)
        if not re.fullmatch(r"[0-9]{1,7}", count, re.ASCII) or int(count) > MOST_DATA_LINES:
            raise Refused("E02")
        if command.missing:
            raise Refused("E13")
        within(cell)
        return self.book.csv(force, cell, b"".join(command.data))

    def looked(self, word: str, rest: str) -> str:
        served = {
            "scenario": self.scenario,
            "drop": lambda rest: self.book.drop(name(words(rest, 1)[0])),
            "base": self.base,
            "use": self.use,
            "as": lambda rest: self.book.as_session(name(words(rest, 1)[0])),
            "show": lambda rest: self.book.show(self.area(rest)),
            "export": lambda rest: self.book.export(self.area(rest)),
            "changes": self.changes,
            "compare": self.compare,
            "table": self.table,
            "formula": self.formula,
        }.get(word)
        if served is None:
            raise Refused("E02")
        return served(rest)

    def use(self, rest: str) -> str:
        named = words(rest, 0, 1)
        return self.book.use(name(named[0]) if named else None)

    def area(self, rest: str) -> Rectangle:
        area = rectangle(words(rest, 1)[0])
        within(area)
        return area

    def scenario(self, rest: str) -> str:
        first, rest = split_word(rest)
        second, content = split_word(rest)
        scenario, cell = name(first), address(second)
        within(cell)
        return self.book.scenario(scenario, cell, content)

    def base(self, rest: str) -> str:
        first, *other = [name(word) for word in words(rest, 1, 2)]
        return self.book.base(first, other[0] if other else None)

    def changes(self, rest: str) -> str:
        words(rest, 0)
        return self.book.changes()

    def compare(self, rest: str) -> str:
        first, second, third = words(rest, 3)
        scenarios, area = (side(first), side(second)), rectangle(third)
        within(area)
        return self.book.compare(*scenarios, area)

    def table(self, rest: str) -> str:
        found = words(rest, 3, 5)
        cells = address(found[0]), address(found[1])
        column = rectangle(found[2])
        second = (address(found[3]), rectangle(found[4])) if len(found) == 5 else None
        if not is_outside(column) and column[1] != column[3]:
            raise Refused("E02")
        if second and not is_outside(second[1]) and second[1][0] != second[1][2]:
            raise Refused("E02")
        within(*cells, column, *(second or ()))
        return self.book.table(*cells, column, second)

    def formula(self, rest: str) -> str:
        cell = address(words(rest, 1)[0])
        within(cell)
        return self.book.formula(cell)


def replies_to(script: bytes) -> list[bytes]:
    """The replies to the commands of a script, on a new workbook."""
    return Script().replies(script)


def in_deep_thread(work: Callable[[], None]) -> None:
    """Runs a function where a long chain of references may be followed."""
    sys.setrecursionlimit(10_000_000)
    threading.stack_size(512 * 1024 * 1024)
    thread = threading.Thread(target=work)
    thread.start()
    thread.join()


def main() -> None:
    script = sys.stdin.buffer.read()
    sys.stdout.buffer.write(b"".join(replies_to(script)))


if __name__ == "__main__":
    in_deep_thread(main)
