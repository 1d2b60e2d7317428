"""The parts of a page: its fenced blocks, and the prose between them. What a block's words mean, each test says for its pages."""

import re
from dataclasses import dataclass

FENCE = re.compile(r"^```(.*)$")
HEADING = re.compile(r"^#+ (.*)$")
PROSE = "prose"


@dataclass(frozen=True)
class Block:
    """A fenced block: the words after its fence, which are `plain` where there are none, the line of its fence, the heading that it is below, and its
    text. Prose has the word `prose`, and the line at which it begins."""

    words: str
    line: int
    heading: str
    text: str


def blocks_of(page: str) -> list[Block]:
    """The blocks of a page, in order; prose ends at a heading."""
    blocks: list[Block] = []
    lines: list[str] = []
    heading, words, first = "", PROSE, 1

    def end(next_words: str, next_line: int) -> None:
        nonlocal words, first
        if lines or words != PROSE:
            blocks.append(Block(words, first, heading, "".join(f"{line}\n" for line in lines)))
            lines.clear()
        words, first = next_words, next_line

    for number, line in enumerate(page.splitlines(), 1):
        fence = FENCE.match(line)
        title = HEADING.match(line) if words == PROSE else None
        if fence and words == PROSE:
            end(fence[1] or "plain", number)
        elif fence:
            end(PROSE, number + 1)
        elif title:
            end(PROSE, number + 1)
            heading = title[1]
        else:
            lines.append(line)
    end(PROSE, 0)
    return blocks
