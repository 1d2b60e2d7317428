"""A sweep over a DataFrame, or over a list of rows."""

from __future__ import annotations

import csv
import io
from collections.abc import Sequence
from datetime import date
from pathlib import Path
from tempfile import TemporaryDirectory
from typing import Any, Optional, Union

from ..spelling import Spelling
from ..values import Numbers, as_numbers, read
from ..workbook import Workbook
from . import executors
from .chunk.run import run_chunk
from .drive import Executor, Run
from .folder import Chunk, Folder
from .head import Head, WrongSweep
from .inputs import KINDS, Inputs
from .plan import Asked, Plan, found_program, planned

FIRST_LINE = 2
"""Of the sets; the head is the first."""


class SetsFailed(Exception):
    """Rows without a result: `failures` has the place of each in the frame, counted from 0, and the reason."""

    def __init__(self, failures: dict[int, str]) -> None:
        self.failures = failures
        place, reason = next(iter(failures.items()))
        super().__init__(f"{len(failures)} rows have no result; the first is row {place}: {reason}")


def sweep(
    model: Union[str, Path, Workbook],
    frame: Any,
    outputs: Sequence[str],
    executor: Optional[Executor] = None,
    *,
    labels: Sequence[str] = (),
    scenario: Optional[str] = None,
    program: Optional[str] = None,
    jobs: Optional[int] = None,
    numbers: Numbers = float,
    errors: str = "raise",
    digits: Optional[int] = None,
    epoch: Optional[date] = None,
    resume: Union[str, Path, None] = None,
    chunk: Optional[int] = None,
) -> Any:
    """What the outputs show for each row of a frame, whose columns have the addresses of the cells that they are put into as names.

    The model is a script's path, or a workbook: what it has accepted. The frame is a DataFrame, and the answer one with the same index,
    the labels and the outputs; or it is a list of dicts, and the answer one too. Numbers are floats, or what `numbers` makes of a
    Fraction. The executor is any with the `submit` of concurrent.futures, or a Client of Dask; without one, `jobs` processes of this
    machine. Rows without a result raise `SetsFailed`, or are left out if `errors` is "drop". Floats and dates go in as by `Workbook`, or
    as by the workbook that is the model. With a folder as `resume` what is done is kept there, and the same call again does only what lacks.
    A process of the program takes so many rows as `chunk` says.

    whatif.sweep("solar.whatif", frame, ["B10", "B11"])
    """
    if errors not in ("raise", "drop"):
        raise ValueError('errors is "raise" or "drop"')
    known = model.spelling if isinstance(model, Workbook) else Spelling()
    inputs = Inputs.of(frame, labels, Spelling(digits or known.digits, epoch or known.epoch))
    plan = planned_for(model, inputs, outputs, scenario, program)
    with TemporaryDirectory(prefix="whatif-sweep-") as own:
        answers, failures = ran_in(folder_of(Path(resume or own), plan, inputs, chunk), executor, jobs)
    if failures and errors == "raise":
        raise SetsFailed(dict(sorted(failures.items())))
    places = sorted(answers)
    return inputs.answer(places, plan.outputs, [[as_numbers(read(text), numbers) for text in answers[it]] for it in places])


def planned_for(model: Union[str, Path, Workbook], inputs: Inputs, outputs: Sequence[str], scenario: Optional[str], program: Optional[str]) -> Plan:
    """The plan, if each column has what the model has in its cell."""
    if isinstance(model, Workbook):
        name, script, program = "workbook", model.script().encode(), program or model.program
    else:
        name, script = str(model), Path(model).read_bytes()
    plan = planned(found_program(program), Asked(name, script, 0, list(inputs.kinds), outputs, scenario))
    for column in plan.job.columns:
        given = inputs.kinds[column.address]
        if column.kind not in ("-", given):
            raise WrongSweep(f"{column.address}: the frame has {KINDS[given]}, and the model {KINDS[column.kind]}")
    return plan.of_kinds(inputs.kinds)


def folder_of(path: Path, plan: Plan, inputs: Inputs, lines: Optional[int]) -> Folder:
    """The folder of this sweep, made if it isn't there."""
    head = Head(",".join(inputs.kinds).encode() + b"\n", (), tuple(inputs.kinds))
    sets = io.BytesIO("".join(inputs.lines).encode())
    if not Folder.is_there(path):
        return Folder.made(path, plan, head, sets, False, lines)
    folder = Folder(path)
    other = folder.differs(plan, head, sets)
    if other:
        raise WrongSweep(f"{path} is another sweep: it differs in {other}. Name another folder, or remove this one")
    return folder


def ran_in(folder: Folder, executor: Optional[Executor], jobs: Optional[int]) -> tuple[dict[int, list[str]], dict[int, str]]:
    """What the outputs show for each row, and why a row has no result. What is done already isn't done again."""

    def call(chunk: Chunk) -> tuple[Any, ...]:
        return run_chunk, folder.job, folder.program, chunk.first, folder.data(chunk)

    engine = executors.of(executor, jobs)
    try:
        given_up = Run(engine, call, folder.keep).all(folder.lacking())
    finally:
        engine.close()
    if given_up:
        chunk, reason = min(given_up)
        raise RuntimeError(f"{len(given_up)} chunks have no results; the first is that of row {chunk.first - FIRST_LINE}: {reason}")
    results, failed = io.BytesIO(), io.BytesIO()
    folder.gather(results, failed)
    failures = {int(line) - FIRST_LINE: reason for line, _, reason in records(failed.getvalue())[1:]}
    places = (row for row in range(folder.count) if row not in failures)
    return dict(zip(places, records(results.getvalue())[1:])), failures


def records(written: bytes) -> list[list[str]]:
    return list(csv.reader(io.StringIO(written.decode(), newline="")))
