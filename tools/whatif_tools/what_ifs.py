"""What-ifs that can't answer: inputs on which the formula cell doesn't rest, and empty cells to put in."""

from collections.abc import Iterator

from .finding import Finding, Kind
from .grid import Grid, WhatIf, place
from .program import Reply
from .script import Command
from .sheet import Address


def table_findings(command: Command, reply: Reply, grid: Grid) -> Iterator[Finding]:
    if command.name == "table":
        yield from unread_inputs(command, grid)
        yield from empty_inputs(command, reply)


def unread_inputs(command: Command, grid: Grid) -> Iterator[Finding]:
    words = command.words
    result = place(words[1])
    for at in (2, 4)[: len(words) // 3]:
        advice = why_unread(result, place(words[at]), grid)
        if advice is not None:
            swapped = [*words[:1], words[at], words[1], *words[3:]] if at == 2 else []
            message = f"{advice}: is {' '.join(swapped)} meant?" if swapped and grid.rests_on(place(words[at]), result) else advice
            yield Finding(command.line, word_place(command, at) + 1, Kind.UNREAD_INPUT, message, command.text)


def why_unread(result: Address, replaced: Address, grid: Grid) -> str | None:
    """What is said where a result doesn't rest on the input that is replaced; None where it does, or where that isn't known."""
    if not grid.is_known or grid.rests_on(result, replaced) is not False:
        return None
    content = grid.at(result)
    if content.formula is None:
        what = "is empty" if content.is_empty else "has no formula"
        return f"{result} {what}, so it shows the same for every value of {replaced}" + swapped_way(result, replaced, grid)
    return f"{result} doesn't rest on {replaced}, so it shows the same for every value of {replaced}" + swapped_way(result, replaced, grid)


def swapped_way(result: Address, replaced: Address, grid: Grid) -> str:
    is_swapped = grid.rests_on(replaced, result)
    return f"; {replaced} rests on {result}, and the formula cell comes first" if is_swapped else "; name the input that its formula reads"


def what_if_findings(grid: Grid) -> Iterator[Finding]:
    """The same of MULTIPLE.OPERATIONS in cells, as they stand at the end."""
    told: set[tuple[int, Address, Address]] = set()
    for content, asked in grid.what_ifs() if grid.is_known else ():
        yield from what_if_finding(content.line, asked, grid, told)


def what_if_finding(line: int, asked: WhatIf, grid: Grid, told: set[tuple[int, Address, Address]]) -> Iterator[Finding]:
    for replaced in asked.inputs:
        known = (line, asked.result, replaced)
        if known not in told:
            told.add(known)
            advice = why_unread(asked.result, replaced, grid)
            if advice is not None:
                yield Finding(line, 1, Kind.UNREAD_INPUT, f"MULTIPLE.OPERATIONS: {advice}")


def word_place(command: Command, at: int) -> int:
    """Where a word of a command stands, counted from 0, by its number among the words."""
    place = 0
    for word in command.words[: at + 1]:
        place = command.text.index(word, place) + len(word)
    return place - len(command.words[at])


def empty_inputs(command: Command, reply: Reply) -> Iterator[Finding]:
    """Cells of a table's XCOLUMN or YROW that show nothing."""
    words, written = command.words, reply.records()
    is_wide = len(words) > 4
    column = [record[0] for record in (written[1:] if is_wide else written)]
    row = written[0][1:] if is_wide else []
    for name, at, texts in (("XCOLUMN", 3, column), ("YROW", len(words) - 1, row)):
        if "" in texts:
            empty = f"{texts.count('')} of the {len(texts)} cells of {name} show nothing"
            message = f"{empty}: an empty one empties the input there, which then counts as 0"
            yield Finding(command.line, word_place(command, at) + 1, Kind.EMPTY_INPUT, message, command.text)
