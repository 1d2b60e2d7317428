"""Comments `#! E12` above a command: they say that a refusal, an error or a finding is meant."""

import re
from collections.abc import Iterator

from .finding import Finding, Kind
from .program import Reply
from .script import Command

WORD = re.compile(r"E[0-9][0-9]|#(?:NUM!|VALUE!|REF!|DIV/0!|N/A|NAME\?|CIRC!)|meant")
ALL = "meant"
"""Says that whatever is found at the command is meant."""


def meant_by(command: Command) -> set[str]:
    """What the comment above a command says is meant; a comment with other words says nothing."""
    words = command.mark.replace(",", " ").split()
    return set(words) if words and all(WORD.fullmatch(word) for word in words) else set()


def as_meant(found: list[Finding], commands: list[Command], replies: list[Reply]) -> Iterator[Finding]:
    """The findings that no comment says are meant, and those comments whose refusal or error isn't there."""
    marked = [(command, meant_by(command)) for command in commands if command.mark]
    meant = {line: (command, words) for command, words in marked if words for line in range(command.line, command.last_line + 1)}
    met: set[tuple[int, str]] = set()
    for finding in found:
        marked_here = meant.get(finding.line)
        if marked_here is not None and (finding.code in marked_here[1] or ALL in marked_here[1]):
            met |= {(marked_here[0].line, finding.code or ALL), (marked_here[0].line, ALL)}
        else:
            yield finding
    ends = {command.line: reply.end for command, reply in zip(commands, replies)}
    for command, words in marked:
        for word in sorted(words):
            if (command.line, word) not in met:
                yield Finding(command.line, 1, Kind.NOT_AS_MEANT, f"{word} is meant here, and {told(word, ends.get(command.line, ''))}", command.text)


def told(word: str, end: str) -> str:
    if word.startswith("E"):
        return f"the reply is {end or 'none'}"
    return "nothing is found" if word == ALL else "no such error starts here"
