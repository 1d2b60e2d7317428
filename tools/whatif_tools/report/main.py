"""whatif-report: runs a script, and makes a page to look at of its questions and answers.

Each table is a heat map and curves, each comparison has bars; what moves a result most is found from the formulas and asked.
"""

import argparse
import gc
import re
import sys
import webbrowser
from collections.abc import Iterator
from contextlib import contextmanager
from fractions import Fraction
from pathlib import Path

from whatif.drawing.values import exact

from ..program import NoProgram
from ..sheet import Address
from .page import Asked, page

EPILOG = """The page is one file, which needs neither network nor script. Exit status: 0 nothing was found wrong, 1 something was, 2 a file or
the program can't be opened. The environment variable WHATIF says where whatif is; else it is the one built in this repository."""


def percentage(text: str) -> Fraction:
    number = exact(text.rstrip("% "))
    if number is None or not 0 < number <= 100:
        raise argparse.ArgumentTypeError(f"{text!r} is no number above 0 and up to 100")
    return number / 100


def cell(text: str) -> str:
    at = Address.parse(text)
    if at is None:
        raise argparse.ArgumentTypeError(f"{text!r} is no cell, such as B9")
    return str(at)


def decimals(text: str) -> int:
    if re.fullmatch("[0-9]{1,2}", text) is None or int(text) > 38:
        raise argparse.ArgumentTypeError(f"{text!r} isn't 0 to 38")
    return int(text)


def arguments(words: list[str]) -> argparse.Namespace:
    parser = argparse.ArgumentParser(prog="whatif-report", description=__doc__, epilog=EPILOG)
    parser.add_argument("script", metavar="SCRIPT", type=Path)
    parser.add_argument("--load", metavar="MODEL", type=Path, help="run this script first, on the same workbook")
    parser.add_argument("-o", "--output", metavar="FILE", type=Path, help="the page; without it SCRIPT with .html for its ending, in this folder")
    parser.add_argument("--by", metavar="PERCENT", type=percentage, default="10", help="so much lower and higher each input is tried [default: 10]")
    tornado = "what moves this cell, in the place of the cells that tables ask for"
    parser.add_argument("--tornado", metavar="CELL", type=cell, action="append", help=tornado)
    parser.add_argument("--places", metavar="N", type=decimals, help="so many decimals; without it as few as tell neighbours apart")
    parser.add_argument("--date", metavar="TEXT", default="", help="a date for the foot of the page; without it the same script gives the same bytes")
    parser.add_argument("--open", action="store_true", help="show the page in the browser")
    return parser.parse_args(words)


@contextmanager
def cycles_left() -> Iterator[None]:
    """Python doesn't look for objects that name one another and are out of use: a page makes few, and of many cells the looks take a third of its time."""
    was_enabled = gc.isenabled()
    gc.disable()
    try:
        yield
    finally:
        if was_enabled:
            gc.enable()


def main(words: list[str]) -> int:
    asked = arguments(words)
    output: Path = asked.output or Path(f"{asked.script.stem}.html")
    try:
        with cycles_left():
            text, count = page(Asked(asked.script, asked.load, asked.by, asked.tornado, asked.places, asked.date))
        output.write_text(text, encoding="utf-8", newline="\n")
    except (OSError, NoProgram) as error:
        print(f"whatif-report: {error}", file=sys.stderr)
        return 2
    if count:
        print(f"whatif-report: {count} thing{' needs' if count == 1 else 's need'} a look: see {output}", file=sys.stderr)
    if asked.open:
        webbrowser.open(output.resolve().as_uri())
    return 1 if count else 0
