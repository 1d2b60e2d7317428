"""Drives the program whatif from Python: exact values in, exact values out, refusals as exceptions.

    >>> from decimal import Decimal
    >>> with Workbook() as book:
    ...     book["A1"] = [["consumption", 250], ["price", Decimal("0.32")], ["fee", 12]]
    ...     book["B4"] = Formula("=[.B1]*[.B2]+[.B3]")
    ...     book["B4"]
    Fraction(92, 1)

One process runs for each workbook, and each method is a command or a few of them. Only the standard library is needed; what makes a
DataFrame, or takes one, imports pandas.

The program is the one given to `Workbook`, else that of the environment variable WHATIF, else `whatif` on the path. It reads at
most 1,000,000 lines in one run (`Workbook.lines` counts them). A workbook is for one thread.
"""

from .answers import Change, Changes, Comparison, Difference, Effect, Grid, Scenarios, Sensitivity, Table
from .process import Ended, ProgramMissing
from .refusals import Refused
from .scenario import Scenario
from .session import Session
from .sweeps.frame import SetsFailed, sweep
from .sweeps.head import WrongSweep
from .values import CellError, Formula, Text, Value
from .workbook import Workbook

__all__ = [
    "CellError",
    "Change",
    "Changes",
    "Comparison",
    "Difference",
    "Effect",
    "Ended",
    "Formula",
    "Grid",
    "ProgramMissing",
    "Refused",
    "Scenario",
    "Scenarios",
    "Sensitivity",
    "Session",
    "SetsFailed",
    "Table",
    "Text",
    "Value",
    "Workbook",
    "WrongSweep",
    "sweep",
]
