"""What a cell would show if each of its inputs alone were a part lower, and higher: asked by a scenario, exactly."""

from collections.abc import Sequence
from dataclasses import dataclass
from fractions import Fraction

from whatif.drawing import Bar, Label
from whatif.drawing.values import exact, shown

from ..formula import fits
from ..program import Reply
from ..sheet import Address
from .inputs import LEFT_OUT, Sheet, is_quantity
from .labels import names_in

MOST_INPUTS = 1_000


@dataclass(frozen=True)
class Input:
    """An input with its name, and its values now, lower and higher."""

    at: str
    name: str
    value: Fraction
    low: Fraction
    high: Fraction


@dataclass(frozen=True)
class Plan:
    """What is asked of a cell, and what is to be said of what isn't."""

    goal: Label
    base: Fraction
    inputs: Sequence[Input]
    remarks: Sequence[str]

    def lines(self, scenario: str, based_on: str | None) -> list[str]:
        """The commands: a scenario in which one input after the other is lower, then higher, then as it was."""
        if not self.inputs:
            return []
        lines: list[str] = []
        for n, known in enumerate(self.inputs):
            lines.append(f"scenario {scenario} {known.at} {shown(known.low)}")
            if n == 0:
                lines += [*([f"base {scenario} {based_on}"] if based_on else []), f"use {scenario}"]
            lines += [f"show {self.goal.address}", f"scenario {scenario} {known.at} {shown(known.high)}", f"show {self.goal.address}"]
            lines.append(f"scenario {scenario} {known.at}")
        return [*lines, "use", f"drop {scenario}"]

    def bars(self, replies: Sequence[Reply]) -> list[Bar] | None:
        """The inputs with the results; None where a command was refused."""
        if any(reply.code is not None for reply in replies):
            return None
        results = [reply.records()[0][0] for reply in replies if reply.lines]
        if len(results) != 2 * len(self.inputs):
            return None
        pairs = zip(self.inputs, results[::2], results[1::2])
        return [Bar(Label(known.at, known.name), known.value, known.low, known.high, low, high) for known, low, high in pairs]


def plan(sheet: Sheet, goal: Label, by: Fraction, replaced: frozenset[str]) -> Plan | None:
    """What moves a cell; None where it shows no number or rests on no constant."""
    at = Address.parse(goal.address)
    base = exact(sheet.cells.get(at, ("-", ""))[1]) if at is not None else None
    if at is None or base is None:
        return None
    places = frozenset(cell for cell in map(Address.parse, replaced) if cell is not None)
    names = names_in(sheet.cells)
    inputs: list[Input] = []
    left_out = 0
    for cell in sheet.inputs(at, places):
        value, name = exact(sheet.cells[cell][1]), names.of(cell.row, cell.column)
        if value is None or not is_quantity(value, name) or value == 1 and sheet.begins_a_column(cell):
            left_out += 1
        elif fits(value * (1 - by)) and fits(value * (1 + by)):
            inputs.append(Input(str(cell), name, value, value * (1 - by), value * (1 + by)))
    remarks = [f"The nearest {MOST_INPUTS:,} of {len(inputs):,} inputs were tried."] if len(inputs) > MOST_INPUTS else []
    if left_out:
        remarks.append(f"{left_out:,} constant{'s are' if left_out > 1 else ' is'} left out. {LEFT_OUT}")
    return Plan(goal, base, inputs[:MOST_INPUTS], remarks) if inputs else None
