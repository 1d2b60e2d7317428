"""whatif-import: writes a script from a sheet of a workbook, and from the sheets that it reads, and audits it."""

import argparse
import sys
from pathlib import Path

from .audit import Compared, audit
from .carry import Carrier, one_line
from .document import Document, Sheet
from .ods import read
from .pieces import CannotGoOver
from .program import NoProgram
from .spreadsheet_file import NotASpreadsheet

EPILOG = (
    "It takes .ods and .fods, and .xlsx and .xls where soffice of LibreOffice is on the path. The audit is told on standard error: how many"
    " formulas agree with the values that the file has saved. What can't go over is frozen at its saved value, which a comment in the script"
    " says. Exit status: 0 all agree and nothing is frozen, 1 values differ or cells are frozen, 2 the file can't be read or has no such sheet."
)
MOST_NOTES = 20
OLD_NAME = "ods2whatif"


def arguments(words: list[str], name: str) -> argparse.Namespace:
    parser = argparse.ArgumentParser(prog=name, description=__doc__, epilog=EPILOG)
    audited = "write no script, but a CSV record for each formula whose value differs, with its cause"
    parser.add_argument("--audit", "--check", action="store_true", help=audited)
    parser.add_argument("--all", action="store_true", help="take all sheets, whether the first one reads them or not")
    loans = "PMT, FV, PV and NPER by columns of rounded steps: another model than theirs, told in the script"
    parser.add_argument("--expand-loans", action="store_true", help=loans)
    parser.add_argument("file", metavar="FILE", type=Path)
    parser.add_argument("sheet", metavar="SHEET", nargs="?", help="the first one if it is left out")
    return parser.parse_args(words)


def chosen(document: Document, name: str | None) -> Sheet:
    found = document.sheet(name) if name is not None else next(iter(document.sheets), None)
    if found is None:
        names = ", ".join(one_line(sheet.name) for sheet in document.sheets[:MOST_NOTES])
        raise NotASpreadsheet(f"there is no sheet {name or ''}; there are: {names}")
    return found


def told(compared: list[Compared], carrier: Carrier) -> str:
    """The line that the audit comes to."""
    if not compared and not carrier.frozen and not carrier.left_empty:
        return "there are no formulas to audit"
    saved = [one for one in compared if one.is_saved]
    differing = [one for one in saved if not one.agrees]
    agree = f"{len(saved) - len(differing)} of {len(saved)} formulas agree with the saved values"
    differ = f"; {counted(len(differing), 'differs', 'differ')}: see --audit" if differing else ""
    frozen = f"; {counted(len(carrier.frozen), 'cell is frozen', 'cells are frozen')} at what was saved" if carrier.frozen else ""
    empty = f"; {counted(len(carrier.left_empty), 'cell is', 'cells are')} left empty" if carrier.left_empty else ""
    without = f"; {counted(len(compared) - len(saved), 'has', 'have')} no saved value" if len(saved) < len(compared) else ""
    return agree + differ + frozen + empty + without


def counted(count: int, one: str, many: str) -> str:
    return f"{count} {one if count == 1 else many}"


def notes(carrier: Carrier) -> str:
    """What is to be said of single cells, the first of many."""
    lines = [line for line in carrier.head() if not line.startswith("name ")]
    lines += [str(note) for note in carrier.notes[:MOST_NOTES]]
    if len(carrier.notes) > MOST_NOTES:
        lines.append(f"and {len(carrier.notes) - MOST_NOTES} more; each is marked by a comment in the script")
    if carrier.dates:
        dates = f"{len(carrier.dates)} dates or times are numbers of days here, from {carrier.dates[0]} on"
        lines.append(dates if len(carrier.dates) > 1 else f"{carrier.dates[0]} is a date or a time: a number of days here")
    return "".join(f"{line}\n" for line in lines)


def too_long(differing: list[Compared]) -> str:
    """The cells from which on numbers are too long, each with its cure."""
    found = [one for one in differing if one.cause.startswith("#NUM!")]
    lines = [f"{one.cell.sheet}.{one.cell.address} shows {one.cause}" for one in found[:MOST_NOTES]]
    more = [f"and {len(found) - MOST_NOTES} more that are too long"] if len(found) > MOST_NOTES else []
    return "".join(f"{one_line(line)}\n" for line in lines + more)


def carried(asked: argparse.Namespace) -> int:
    document = read(asked.file)
    carrier = Carrier.of(document, chosen(document, asked.sheet), asked.all, asked.expand_loans)
    script = carrier.script()
    try:
        compared = audit(carrier, script)
    except NoProgram as error:
        if asked.audit:
            raise
        sys.stdout.write(script)
        sys.stderr.write(f"{notes(carrier)}not audited: {error}\n")
        return 1
    differing = [one for one in compared if one.is_saved and not one.agrees]
    sys.stdout.write("".join(one.record() for one in differing) if asked.audit else script)
    sys.stderr.write(f"{notes(carrier)}{too_long(differing)}{told(compared, carrier)}\n")
    return 1 if differing or carrier.frozen or carrier.left_empty else 0


def main(words: list[str], name: str = "whatif-import") -> int:
    asked = arguments(words, name)
    if name == OLD_NAME:
        print(f"{OLD_NAME} is whatif-import now, and audits; the old name goes with the next release", file=sys.stderr)
    try:
        return carried(asked)
    except (OSError, NotASpreadsheet, CannotGoOver, NoProgram) as error:
        print(f"{name}: {one_line(str(error))}", file=sys.stderr)
    except (MemoryError, RecursionError):
        print(f"{name}: {asked.file} has too much in it", file=sys.stderr)
    return 2
