"""Errors in the replies of commands that ask: in entries of a table, and in what a scenario shows."""

from collections.abc import Iterator

from .cures import CURES
from .finding import Finding, Kind
from .program import Reply
from .script import Command
from .sheet import Address, Rectangle

ASKS = ("table", "compare", "show", "export")


def reply_findings(command: Command, reply: Reply, scenario: str | None, in_error: set[Address]) -> Iterator[Finding]:
    """The first error in a reply that the sheet doesn't show by itself; `in_error` are the cells that do at the end of the script."""
    found = list(errors_in(command, reply, scenario, in_error)) if command.name in ASKS else []
    if found:
        where, error = found[0]
        more = f", and {len(found) - 1} more like it" if len(found) > 1 else ""
        yield Finding(command.line, 1, Kind.ERROR_IN_REPLY, f"{where} is {error}{more}: {CURES[error]}", command.text, error)


def errors_in(command: Command, reply: Reply, scenario: str | None, in_error: set[Address]) -> Iterator[tuple[str, str]]:
    """Where an error is in a reply, and which."""
    words = command.words
    if command.name == "table":
        if Address.parse(words[1]) not in in_error:
            yield from entries(reply, len(words) > 4)
    elif command.name == "compare":
        yield from compared(words, reply)
    elif scenario is not None:
        yield from shown(Rectangle.parse(words[1]), reply, scenario, in_error)


def entries(reply: Reply, is_wide: bool) -> Iterator[tuple[str, str]]:
    written = reply.records()
    head = written[0] if is_wide else []
    for record in written[1:] if is_wide else written:
        for at, text in enumerate(record[1:], 1):
            if text in CURES and record[0] not in CURES and not (is_wide and head[at] in CURES):
                yield f"the entry for {record[0]}" + (f" and {head[at]}" if is_wide else ""), text


def compared(words: list[str], reply: Reply) -> Iterator[tuple[str, str]]:
    for address, before, after, _ in reply.records():
        for name, text, other in ((words[1], before, after), (words[2], after, before)):
            if name != "-" and text in CURES and other not in CURES:
                yield f"{address} under {name}", text


def shown(area: Rectangle | None, reply: Reply, scenario: str, in_error: set[Address]) -> Iterator[tuple[str, str]]:
    if area is None:
        return
    for down, record in enumerate(reply.records()):
        for right, text in enumerate(record):
            cell = Address(area.first.row + down, area.first.column + right)
            if text in CURES and cell not in in_error:
                yield f"{cell} under {scenario}", text
