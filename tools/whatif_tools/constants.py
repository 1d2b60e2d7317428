"""Values of a spreadsheet as contents of cells: numbers at 15 digits, dates as days, texts."""

import re
from datetime import date
from decimal import Decimal
from fractions import Fraction

from .document import NUMBERS, Cell
from .formula import fits
from .pieces import CannotGoOver
from .sheet import Address

DIGITS = 15
"""Numbers of a spreadsheet are floating-point: what stands behind the 15th digit is noise."""

EXACT_UP_TO = 2**53
LONGEST_TEXT = 32_767
SECONDS_OF_DAY = 86_400
LARGEST_EXPONENT = 400
FLOAT = re.compile(r"[-+]?(?:[0-9]+(?:\.[0-9]*)?|\.[0-9]+)(?:[eE][-+]?[0-9]{1,4})?", re.ASCII)
SECONDS = r"[0-9]{1,9}(?:\.[0-9]{1,15})?"
DURATION = re.compile(rf"(-?)P(?:([0-9]{{1,9}})D)?T?(?:([0-9]{{1,9}})H)?(?:([0-9]{{1,9}})M)?(?:({SECONDS})S)?", re.ASCII)
DATE = re.compile(rf"([0-9]{{4}})-([0-9]{{2}})-([0-9]{{2}})(?:T([0-9]{{2}}):([0-9]{{2}}):({SECONDS}))?", re.ASCII)
ERRORS = {"#N/A": "=NA()", "#DIV/0!": "=1/0", "#VALUE!": '=VALUE("")', "#NUM!": "=2^0.5", "#NAME?": "=NAME()"}
"""Formulas that show what an error cell has saved."""


def content(cell: Cell, start_of_days: str) -> str:
    """What a saved value is put in as."""
    if cell.kind in NUMBERS:
        return number(cell.value)
    if cell.kind in ("date", "time"):
        return days(cell, start_of_days)
    if cell.kind == "boolean":
        return logical(cell.value)
    if cell.kind == "error" and cell.value in ERRORS:
        return ERRORS[cell.value]
    if len(cell.value.encode()) > LONGEST_TEXT:
        raise CannotGoOver("a text of more than 32,767 bytes")
    return f"'{cell.value}"


def logical(value: str) -> str:
    if value.lower() not in ("true", "false"):
        raise CannotGoOver(f"the truth value {value[:20]!r}")
    return value.upper()


def days(cell: Cell, start_of_days: str) -> str:
    """A date or a time of day as a number of days, as spreadsheets count them."""
    return exact(duration(cell.value) if cell.kind == "time" else since(start_of_days, cell.value))


def put(place: Address, text: str) -> str:
    """The command for a content. A text with a line break goes in by CSV, since a command is one line."""
    if "\n" not in text and "\r" not in text:
        return f"set {place} {text}\n"
    quoted = text.removeprefix("'").replace('"', '""')
    return f"csv {place} {quoted.count(chr(10)) + 1}\n\"{quoted}\"\n"


def decimal_of(text: str) -> Decimal:
    """A saved number, if it is one and its size is one that a spreadsheet has."""
    if FLOAT.fullmatch(text) is None:
        raise CannotGoOver(f"the number {text[:40]!r}")
    saved = Decimal(text)
    if saved and abs(saved.adjusted()) > LARGEST_EXPONENT:
        raise CannotGoOver(f"the number {text[:40]}")
    return saved


def number(text: str) -> str:
    """A saved number at 15 digits; a whole one below 2^53 is exact and stays."""
    saved = decimal_of(text)
    if saved == saved.to_integral_value() and abs(saved) < EXACT_UP_TO:
        return f"{int(saved)}"
    return exact(Fraction(Decimal(f"{saved:.{DIGITS - 1}e}").normalize()))


def exact(value: Fraction) -> str:
    """A number as it is read: a decimal if it is one, else a quotient."""
    if not fits(value):
        raise CannotGoOver("a number that doesn't fit in 128 bits")
    decimal = Decimal(value.numerator) / Decimal(value.denominator)
    return f"{decimal.normalize():f}" if Fraction(decimal) == value else f"{value.numerator}/{value.denominator}"


def since(start: str, day: str) -> Fraction:
    """The days from one date to another one, which may have a time of day."""
    first, found = DATE.fullmatch(start), DATE.fullmatch(day)
    if first is None or found is None:
        raise CannotGoOver(f"the date {day[:30]!r}")
    try:
        passed = date(*map(int, found.groups()[:3])) - date(*map(int, first.groups()[:3]))
    except ValueError as error:
        raise CannotGoOver(f"the date {day[:30]!r}") from error
    hours, minutes, seconds = (Fraction(part or 0) for part in found.groups()[3:])
    return passed.days + (hours * 3600 + minutes * 60 + seconds) / SECONDS_OF_DAY


def duration(time: str) -> Fraction:
    found = DURATION.fullmatch(time)
    if found is None:
        raise CannotGoOver(f"the time {time[:30]!r}")
    sign, whole, hours, minutes, seconds = (part or "0" for part in found.groups())
    total = Fraction(whole) + (Fraction(hours) * 3600 + Fraction(minutes) * 60 + Fraction(seconds)) / SECONDS_OF_DAY
    return -total if sign == "-" else total
