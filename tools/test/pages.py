"""The examples of a page: fenced blocks, and the tables by section."""

import re
from dataclasses import dataclass
from pathlib import Path

from tests.support.pages import PROSE, blocks_of

CODE = re.compile(r"`([^`]+)`")
BAR = re.compile(r"(?<!\\)\|")
HEAD = 2
"""A table begins with the line of its titles and one below it."""


@dataclass(frozen=True)
class Block:
    """A fenced block, its language, and the replies right behind it if there are any."""

    language: str
    text: str
    line: int
    behind: "Block | None" = None


@dataclass(frozen=True)
class Page:
    """A page's blocks, and the rows of each section's tables without their heads."""

    blocks: list[Block]
    tables: dict[str, list[list[str]]]


def page_of(path: Path) -> Page:
    parts = blocks_of(path.read_text())
    tables: dict[str, list[list[str]]] = {}
    for part in parts:
        for row in rows(part.text) if part.words == PROSE else ():
            tables.setdefault(part.heading, []).append(cells(row))
    fenced = [part for part in parts if part.words != PROSE]
    blocks: list[Block] = []
    for part in reversed(fenced):
        behind = blocks[-1] if blocks and blocks[-1].language == "replies" else None
        blocks.append(Block(part.words, part.text, part.line, behind))
    return Page(blocks[::-1], tables)


def rows(prose: str) -> list[str]:
    """The rows of the tables in a piece of prose, without their heads."""
    found, head = [], 0
    for line in prose.splitlines():
        head = head + 1 if line.startswith("|") else 0
        if head > HEAD:
            found.append(line)
    return found


def cells(row: str) -> list[str]:
    return [cell.strip().replace("\\|", "|") for cell in BAR.split(row)[1:-1]]


def codes(cell: str) -> list[str]:
    """What is in backquotes in a cell of a table."""
    return CODE.findall(cell)
