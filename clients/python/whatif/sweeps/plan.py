"""What a sweep asks: the model, the inputs and the outputs, looked at before anything is run."""

from __future__ import annotations

import hashlib
import os
from collections.abc import Mapping, Sequence
from dataclasses import dataclass, field, replace
from shutil import which
from typing import Optional

from ..addresses import address_of, grid_of, place_of
from ..process import Ended
from ..refusals import Refused
from ..workbook import Workbook
from .chunk.job import Column, Job, Show
from .chunk.program import ran, sha256_of
from .head import WrongSweep

SCENARIO = "whatif_sweep"
SESSION = "whatif_sweep"
PROBE = "a text that no cell of the model has"
LINES = 1_000_000
GROUP = 200


def shows_of(outputs: Sequence[str]) -> tuple[tuple[Show, ...], tuple[str, ...]]:
    """The questions for these cells and rectangles, in as few commands as their order allows, and the address of each answer.

    >>> shows_of(["b10", "C10", "D2:D3"])
    ((Show(rect='B10:C10', rows=1, columns=2), Show(rect='D2:D3', rows=2, columns=1)), ('B10', 'C10', 'D2', 'D3'))
    """
    shows: list[Show] = []
    addresses: list[str] = []
    for rect in outputs:
        try:
            grid = grid_of(rect.strip())
        except ValueError:
            raise WrongSweep(f"--out: {rect!r} is no address and no rectangle, as in B10,B11 or B10:B20") from None
        last = shows[-1] if shows and shows[-1].rows == len(grid) == 1 else None
        if last and next_of(addresses[-1]) == grid[0][0]:
            shows[-1] = Show(f"{last.rect.partition(':')[0]}:{grid[0][-1]}", 1, last.columns + len(grid[0]))
        else:
            corners = grid[0][0] if grid[0][0] == grid[-1][-1] else f"{grid[0][0]}:{grid[-1][-1]}"
            shows.append(Show(corners, len(grid), len(grid[0])))
        addresses += [address for row in grid for address in row]
    for at, address in enumerate(addresses):
        if address in addresses[:at]:
            raise WrongSweep(f"--out: {address} stands there twice")
    return tuple(shows), tuple(addresses)


def next_of(address: str) -> str:
    column, row = place_of(address)
    return address_of(column + 1, row)


def found_program(named: Optional[str] = None) -> str:
    """The program's path: the one given, what the environment variable WHATIF names, else whatif on the path."""
    name = named or os.environ.get("WHATIF") or "whatif"
    path = which(name)
    if not path:
        raise WrongSweep(f"{name}: no such program; the environment variable WHATIF names it")
    return os.path.abspath(path)


@dataclass(frozen=True)
class Plan:
    """A sweep that can begin: the job of each chunk, the head of the results, and what the user should know."""

    name: str
    job: Job
    program: str
    outputs: tuple[str, ...]
    notes: tuple[str, ...]

    def most_sets(self) -> int:
        """How many sets a process can take, since a script has at most a million lines."""
        before = self.job.before().count(b"\n")
        return (LINES - before) // (len(self.job.columns) + len(self.job.shows))

    def of_kinds(self, kinds: Mapping[str, str]) -> Plan:
        """The plan with inputs of these kinds."""
        columns = tuple(replace(it, kind=kinds[it.address]) for it in self.job.columns)
        return replace(self, job=replace(self.job, columns=columns))


@dataclass(frozen=True)
class Asked:
    """A sweep that is asked for: the model with its name, how many columns are labels, the inputs, the outputs, a scenario of the model,
    and the kinds of inputs that aren't to be those of the model."""

    name: str
    model: bytes
    labels: int
    inputs: Sequence[str]
    outputs: Sequence[str]
    scenario: Optional[str] = None
    kinds: Mapping[str, str] = field(default_factory=dict)


def planned(program: str, asked: Asked) -> Plan:
    """Runs the model, and finds out about each input: what stands there, and whether an output depends on it."""
    shows, addresses = shows_of(asked.outputs)
    try:
        script = asked.model.decode()
    except UnicodeDecodeError:
        raise WrongSweep("the model is no UTF-8") from None
    try:
        with Workbook(program) as book:
            probe = Probe(book, script, asked.scenario)
            columns = probe.columns(asked.inputs, asked.kinds)
            probe.look_at(shows)
            free = probe.independent(asked.inputs, addresses)
    except (Refused, ValueError) as error:
        raise WrongSweep(f"the model: {error}") from None
    except (Ended, OSError) as error:
        raise WrongSweep(f"{program}: {error}") from None
    job = answered(program, Job(script, start_of(columns, asked.scenario), 0, "", sha256_of(program), asked.labels, columns, shows))
    return Plan(asked.name, job, program, addresses, tuple(f"{address} depends on none of the inputs" for address in free))


def start_of(columns: Sequence[Column], scenario: Optional[str]) -> str:
    """The commands between the model and the first set. Inputs that the scenario replaces are put in by another one, based on it."""
    replaced = [it.address for it in columns if it.is_replacement]
    lines = ["as main", f"use {scenario}" if scenario else "use"]
    if replaced:
        lines += [*(f"scenario {SCENARIO} {address} 0" for address in replaced), f"base {SCENARIO} {scenario}", f"use {SCENARIO}"]
    return "".join(line + "\n" for line in lines)


def answered(program: str, job: Job) -> Job:
    """The job with what the program answers to all that stands before the first set."""
    answer, died = ran(program, job.before())
    if died:
        raise WrongSweep(f"the program ended in the model: {died.how}")
    return replace(job, answered=len(answer), answer_sha256=hashlib.sha256(answer).hexdigest())


class Probe:
    """Questions to the model before a sweep. It is thrown away after them."""

    def __init__(self, book: Workbook, script: str, scenario: Optional[str]) -> None:
        self.book = book
        book.run(script)
        if self.accepts(f"use {SCENARIO}"):
            raise WrongSweep(f"the model has a scenario of the name {SCENARIO}, which is the sweep's")
        self.scenario = scenario
        book.command("as main")
        if not self.accepts(f"use {scenario or ''}"):
            raise WrongSweep(f"the model has no scenario {scenario}")
        session = book.session(SESSION)
        session.use(scenario)
        self.kinds = {it.address: it.kind for it in session.changes()}
        session.use(None)

    def accepts(self, command: str) -> bool:
        try:
            self.book.command(command)
        except Refused:
            return False
        return True

    def columns(self, inputs: Sequence[str], kinds: Mapping[str, str]) -> tuple[Column, ...]:
        for address in kinds:
            if address not in inputs:
                raise WrongSweep(f"{address} is no input: the head of the sets has {', '.join(inputs)}")
        return tuple(self.column(address, kinds.get(address)) for address in inputs)

    def column(self, address: str, kind: Optional[str]) -> Column:
        if not self.accepts(f"show {address}"):
            raise WrongSweep(f"{address} in the head of the sets is outside the sheet")
        stands = self.kinds.get(address, "-")
        self.book.command(f"force set {address} '{PROBE}")
        is_replaced = self.book.show(address) != [[PROBE]]
        put = f"scenario {SCENARIO} {address} " if is_replaced else f"force set {address} "
        return Column(address, kind or ("-" if stands == "E" else stands), put)

    def look_at(self, shows: Sequence[Show]) -> None:
        for show in shows:
            try:
                self.book.show(show.rect)
            except Refused as refused:
                raise WrongSweep(f"--out {show.rect}: {refused.meaning}") from None

    def independent(self, inputs: Sequence[str], outputs: Sequence[str]) -> list[str]:
        """The outputs that depend on none of the inputs. An input on which no output depends is wrong, and so is an empty output.

        Each input in turn gets a formula that reads the outputs: those that depend on it show #CIRC! then.
        """
        for address in outputs:
            if address not in inputs and address not in self.kinds:
                raise WrongSweep(f"--out: {address} is empty in the model")
        depend: set[str] = set()
        for address in inputs:
            reading: set[str] = set()
            for at in range(0, len(outputs), GROUP):
                group = outputs[at : at + GROUP]
                self.book.command(f"force set {address} =SUM({';'.join(f'[.{it}]' for it in group)})")
                reading |= {it for it in group if self.book.show(it) == [["#CIRC!"]]}
            self.book.command(f"force clear {address}")
            if not reading:
                raise WrongSweep(f"no output depends on {address}, so its column does nothing: leave it out, or --labels counts it as a label")
            depend |= reading
        return [address for address in outputs if address not in depend]
