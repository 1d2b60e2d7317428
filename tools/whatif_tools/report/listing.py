"""The script itself, with its lines' numbers and what was found in them."""

from collections.abc import Sequence

from whatif.drawing import Markup, joined, tag

from ..finding import Finding
from ..script import Command, lines_of
from .questions import SHOWING

MOST_OPEN = 80
"""A longer script is shown when it is asked for."""

MOST_LISTED = 3_000
"""Of the lines behind these only those are shown that ask something, or in which something is found."""

DATA_SHOWN = 12
LONGEST = 400


def listing(script: bytes, commands: Sequence[Command], findings: Sequence[Finding], name: str = "The script", anchor: str = "L") -> Markup:
    """All lines but those in the middle of long data and those behind many others, unless something is found or asked there."""
    lines = lines_of(script)
    by_line: dict[int, list[str]] = {}
    for finding in findings:
        by_line.setdefault(finding.line, []).append(finding.message)
    asked = {command.line for command in commands if command.name in SHOWING}
    left_out = {*data_left_out(commands), *range(MOST_LISTED + 1, len(lines) + 1)} - set(by_line) - asked
    shown: list[Markup] = []
    skipped = 0
    for number, line in enumerate(lines, 1):
        if number in left_out:
            skipped += 1
            continue
        shown += [gap(skipped)] if skipped else []
        skipped = 0
        shown.append(numbered(f"{anchor}{number}", line.decode(errors="replace"), by_line.get(number, [])))
    shown += [gap(skipped)] if skipped else []
    summary = tag("summary", f"{name}, {len(lines):,} line{'' if len(lines) == 1 else 's'}")
    return tag("details", summary, tag("pre", joined(shown)), open=len(lines) <= MOST_OPEN or bool(findings))


def data_left_out(commands: Sequence[Command]) -> list[int]:
    found: list[int] = []
    for command in commands:
        first, last = command.line + 1, command.line + len(command.data)
        if len(command.data) > 2 * DATA_SHOWN:
            found += range(first + DATA_SHOWN, last - DATA_SHOWN + 1)
    return found


def gap(count: int) -> Markup:
    return tag("span", tag("i", "\u2026"), f"{count:,} more lines", class_="soft")


def numbered(anchor: str, line: str, messages: Sequence[str]) -> Markup:
    text = line.rstrip("\r")
    text = text if len(text) <= LONGEST else text[:LONGEST] + "\u2026"
    told = [tag("b", f"\u2191 {message}", class_="e") for message in messages]
    kind = "bad" if messages else "soft" if line.startswith("#") else None
    return tag("span", tag("i", anchor[1:]), text, *told, id=anchor, class_=kind)
