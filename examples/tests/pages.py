"""The examples of a page: its scripts, what it says that they write, and other code.

A block ```whatif is a script, and ```whatif continued goes on with the one before it. A block ```replies is the end of what the last
script writes. A record in the prose after a script, or a refusal, is one of its lines.
"""

import re
from dataclasses import dataclass, field

from tests.support.pages import PROSE, blocks_of

SPAN = re.compile(r"`([^`]+)`")
NUMBERS = "no one two three four five six seven eight nine ten".split()
RECORD = re.compile(r'"[^"]*"(,"[^"]*")+|"[0-9./-]+"')


@dataclass
class Script:
    """A script of a page, and what the page says of its replies."""

    heading: str
    text: str
    before: str = ""
    replies: list[str] = field(default_factory=list)
    lines: list[str] = field(default_factory=list)
    oks: int | None = None


def said_lines(prose: str) -> list[str]:
    """The records and refusals in a piece of prose, as lines of a reply without their ends."""
    spans = [" ".join(span.split()) for span in SPAN.findall(prose)]
    return [span for span in spans if RECORD.fullmatch(span) or re.fullmatch(r"refused E\d\d( [A-Z]+\d+)?", span)]


def said_oks(prose: str) -> int | None:
    """The number in `ok` for each of the first N commands."""
    found = re.search(r"`ok` for each of the first (\w+)\s+commands", prose)
    return NUMBERS.index(found[1]) if found else None


def scripts_of(page: str) -> list[Script]:
    """The scripts of a page, with what it says that they write."""
    scripts: list[Script] = []
    for block in blocks_of(page):
        if block.words == "whatif":
            scripts.append(Script(block.heading, block.text))
        elif block.words == "whatif continued":
            scripts.append(Script(block.heading, block.text, scripts[-1].before + scripts[-1].text))
        elif block.words == "replies":
            scripts[-1].replies.append(block.text)
        elif block.words == PROSE and scripts and scripts[-1].heading == block.heading:
            scripts[-1].lines += said_lines(block.text)
            scripts[-1].oks = scripts[-1].oks or said_oks(block.text)
    return scripts
