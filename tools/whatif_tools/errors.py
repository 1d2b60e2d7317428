"""The cells in which an error starts: what they read doesn't show that error."""

from collections.abc import Callable, Iterable, Iterator
from dataclasses import dataclass
from itertools import pairwise

from .cures import Values, cure
from .formula import Kind, is_formula, rectangle, tokens_of
from .program import Reply
from .sheet import Address, Rectangle

SESSION = "whatif_check"
ASK = f"as {SESSION}\nuse\nchanges\n".encode()
CIRCULAR = "#CIRC!"
MOST_TOLD = 6
"""So many steps of a cycle are told."""


@dataclass(frozen=True)
class ErrorCell:
    address: Address
    error: str
    formula: str
    reads: tuple[Rectangle, ...]


def references(formula: str) -> tuple[Rectangle, ...]:
    """The rectangles that a formula refers to."""
    if not is_formula(formula):
        return ()
    tokens = tokens_of(formula, formula.index("=") + 1).tokens
    found = (rectangle(token) for token in tokens if token.kind is Kind.REFERENCE)
    return tuple(known for known in found if known is not None)


def error_cells(shown: Reply, ask: Callable[[bytes], list[Reply]]) -> dict[Address, ErrorCell]:
    """The cells in a reply to `changes` that show an error; `ask` gives the replies to further commands."""
    errors = {address: text for address, (kind, text) in values_in(shown, only="E").items()}
    if not errors:
        return {}
    replies = ask("".join(f"formula {address}\n" for address in errors).encode())[-len(errors) :]
    cells = (cell(address, error, reply.records()[0][1]) for (address, error), reply in zip(errors.items(), replies))
    return {known.address: known for known in cells}


def values_in(reply: Reply, only: str = "") -> Values:
    """What a reply to `changes` says: the kind and the text of each cell, or of those of one kind."""
    records = reply.records() if not only or any(f'","{only}","'.encode() in line for line in reply.lines) else []
    read = ((Address.parse(record[0]), record[1], record[2]) for record in records if len(record) == 3 and only in ("", record[1]))
    return {address: (kind, text) for address, kind, text in read if address is not None}


def cell(address: Address, error: str, formula: str) -> ErrorCell:
    return ErrorCell(address, error, formula, references(formula))


def within(areas: Iterable[Rectangle], cells: dict[Address, ErrorCell]) -> Iterator[ErrorCell]:
    """The error cells in any of the areas."""
    for area in areas:
        if area.first == area.last:
            if area.first in cells:
                yield cells[area.first]
        else:
            yield from (known for address, known in cells.items() if address in area)


def starts(cells: dict[Address, ErrorCell]) -> list[ErrorCell]:
    """Where the errors start, row by row: cells that read none with the same error, and those on a cycle."""
    circular = {address: known for address, known in cells.items() if known.error == CIRCULAR}
    found = [known for known in cells.values() if known.error != CIRCULAR and not reads_same(known, cells)]
    return sorted(found + on_cycles(circular), key=lambda known: known.address)


def reads_same(reader: ErrorCell, cells: dict[Address, ErrorCell]) -> bool:
    return any(read.error == reader.error for read in within(reader.reads, cells))


def on_cycles(circular: dict[Address, ErrorCell]) -> list[ErrorCell]:
    """The circular cells that are left when, again and again, those are taken away that no other one reads."""
    reads = {address: {read.address for read in within(known.reads, circular)} for address, known in circular.items()}
    readers = dict.fromkeys(circular, 0)
    for read in reads.values():
        for address in read:
            readers[address] += 1
    unread = [address for address, count in readers.items() if count == 0]
    while unread:
        for address in reads.pop(unread.pop()):
            readers[address] -= 1
            if readers[address] == 0:
                unread.append(address)
    return [circular[address] for address in reads]


def advice(cell: ErrorCell, cells: dict[Address, ErrorCell], values: Values) -> str | None:
    """What helps where an error starts."""
    if cell.error == CIRCULAR:
        return circle(cell, cells)
    return cure(cell.error, cell.formula, values) if is_formula(cell.formula) else None


def circle(cell: ErrorCell, cells: dict[Address, ErrorCell]) -> str | None:
    """The shortest cycle on which the cell is, and how it is taken apart; None where the cell only reads one."""
    circular = {address: known for address, known in cells.items() if known.error == CIRCULAR}
    paths = [[cell.address]]
    reached: set[Address] = set()
    for path in paths:
        for read in within(circular[path[-1]].reads, circular):
            if read.address == cell.address:
                cycle = told([*path, read.address])
                return f"{cycle}: take one of these references out, or put the steps into a column, each reading the one above it"
            if read.address not in reached:
                reached.add(read.address)
                paths.append([*path, read.address])
    return None


def told(path: list[Address]) -> str:
    """Which cell reads which, shortened where the way is long."""
    steps = [f"{reader} reads {read}" for reader, read in pairwise(path)]
    return ", ".join(steps if len(steps) <= MOST_TOLD else [*steps[: MOST_TOLD - 1], "..", steps[-1]])
