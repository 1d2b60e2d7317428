"""How values of Python are spelled for the program."""

from __future__ import annotations

import csv
import io
import numbers
import re
from collections.abc import Iterable, Sequence
from dataclasses import dataclass
from datetime import date, datetime
from decimal import Decimal
from fractions import Fraction
from typing import Any, Optional

from .values import NUMBER, Formula, Text, Value, read, shown

LARGEST = 2**127 - 1
WHOLE_FLOAT = 2**53
ALL_DIGITS = 17
READABLE = 20
PLAIN = re.compile(r"-?[0-9]+(\.[0-9]+)?")
DAY = 24 * 60 * 60 * 10**9
"""A day in nanoseconds."""


@dataclass(frozen=True)
class Spelling:
    """A float is taken with so many digits, all of them from 17 on; a date is the days since the epoch, and refused without one."""

    digits: int = 15
    epoch: Optional[date] = None

    def exact(self, value: Any) -> Fraction:
        """A number that fits, or a date.

        >>> Spelling().exact(0.1 + 0.2), Spelling(epoch=date(1899, 12, 30)).exact(date(2026, 1, 1))
        (Fraction(3, 10), Fraction(46023, 1))
        """
        number = self.days(value) if is_date(value) else Fraction(self.finite(value))
        if max(abs(number.numerator), number.denominator) > LARGEST:
            raise ValueError(f"{value!r} doesn't fit: both sides of a fraction are at most 2^127 - 1")
        return number

    def finite(self, value: Any) -> int | Fraction | Decimal:
        """A number of any type, as the decimal that it prints as; not a number and infinity are refused."""
        if isinstance(value, (Fraction, Decimal)):
            exact: Fraction | Decimal = value
        elif isinstance(value, numbers.Integral):
            return int(value)
        elif not isinstance(value, float):
            exact = Decimal(str(value))
        elif value.is_integer() and abs(value) <= WHOLE_FLOAT:
            return int(value)
        else:
            exact = Decimal(f"{value:.{self.digits}g}" if self.digits < ALL_DIGITS else repr(float(value)))
        if isinstance(exact, Decimal) and not exact.is_finite():
            raise ValueError(f"{value!r} is no value that a cell can hold; None is an empty cell")
        return exact

    def days(self, value: Any) -> Fraction:
        """The days since the epoch, also parts of one."""
        if self.epoch is None:
            raise TypeError(f"{value!r} is a date, and a cell holds numbers: Workbook(epoch=date(1899, 12, 30)) puts the days since that day")
        moment = value if isinstance(value, date) else value.astype("datetime64[us]").item()
        if getattr(moment, "tzinfo", None):
            raise TypeError(f"{value!r} has a time zone: take it away, as by .replace(tzinfo=None)")
        nanoseconds = 0
        if isinstance(moment, datetime):
            seconds = moment.hour * 3600 + moment.minute * 60 + moment.second
            nanoseconds = (seconds * 10**6 + moment.microsecond) * 1000 + int(getattr(moment, "nanosecond", 0))
        days: int = moment.toordinal() - self.epoch.toordinal()
        return days + Fraction(nanoseconds, DAY)

    def plain(self, value: Any) -> str:
        """A number, a date or a truth value as the program reads it; a TypeError for what a cell can't hold.

        >>> Spelling().plain(True), Spelling().plain(Fraction(1, 3)), Spelling().plain(1e-7)
        ('TRUE', '1/3', '0.0000001')
        """
        if isinstance(value, float) and self.digits < ALL_DIGITS and value:
            text = f"{value:.{self.digits}g}"
            if PLAIN.fullmatch(text):
                return text  # as most floats are; it is what the way below gives
        if is_truth_value(value):
            return "TRUE" if value else "FALSE"
        if is_missing(value):
            raise ValueError(f"{value!r} is no value that a cell can hold; None is an empty cell")
        if isinstance(value, (numbers.Real, Decimal)) or is_date(value):
            number = self.exact(value)
            text = str(number) if number.denominator == 1 else shown(number)
            return text if len(text) <= READABLE else str(number)
        raise TypeError(f"a cell can't hold {value!r} of type {type(value).__name__}: give a number, a bool, a str or None")

    def field(self, value: Any, address: str) -> str:
        """A value as a field of CSV data; a text that would be read as another value is refused."""
        try:
            if value is None:
                return ""
            if not isinstance(value, str):
                return self.plain(value)
            if spells_another(value):
                raise ValueError(f"the text {value!r} would be read as a number, a truth value or nothing")
            return checked_text(value)
        except (TypeError, ValueError) as error:
            raise type(error)(f"{address}: {error}") from None

    def replacement(self, value: Any, address: str) -> str:
        """A value as a scenario takes it: a number, a truth value, or a text of one line that spells nothing else."""
        field = self.field(value, address)
        if field == "" or "\n" in field or "\r" in field:
            raise ValueError(f"{address}: a scenario can't put {value!r} in: no text of several lines, and nothing empty")
        return field

    def value(self, value: Any) -> Value:
        """A value that was given, as it would be read."""
        return str(value) if isinstance(value, str) else read(self.plain(value))


def is_truth_value(value: Any) -> bool:
    """Whether it is a bool of Python or NumPy."""
    return isinstance(value, bool) or (type(value).__module__ == "numpy" and type(value).__name__ in ("bool", "bool_"))


def is_date(value: Any) -> bool:
    """Whether it is a date of Python, pandas or NumPy."""
    return isinstance(value, date) or (type(value).__module__ == "numpy" and type(value).__name__ == "datetime64")


def is_missing(value: Any) -> bool:
    """Whether it stands for no value: NA, NaT."""
    return type(value).__name__ in ("NAType", "NaTType") or (type(value).__name__ == "datetime64" and value != value)


def spells_another(text: str) -> bool:
    """Whether a CSV field of this text wouldn't be this text: an empty one, a number, a truth value.

    >>> spells_another("007"), spells_another("12%"), spells_another("TRUE")
    (True, False, True)
    """
    return text in ("", "TRUE", "FALSE") or NUMBER.fullmatch(text) is not None


def is_alone(value: Any) -> bool:
    """Whether a value can't be a field of CSV, and is put by a command of its own: a formula, a text that spells a number."""
    return isinstance(value, Formula) or (isinstance(value, str) and spells_another(value))


def content_of(text: str) -> str:
    """A formula or a text, as `set` takes it."""
    if isinstance(text, Formula):
        return checked_formula(text)
    return "'" + checked_text(text)


def checked_formula(formula: str) -> str:
    if not formula.startswith(("=", "of:=")):
        raise ValueError(f"a formula begins with =: {formula[:60]!r}")
    return formula


def checked_text(text: str) -> str:
    """The text, unless it begins like a formula and isn't a `Text`: that may be meant otherwise."""
    if text.startswith(("=", "of:=")) and not isinstance(text, Text):
        raise ValueError(f"{text[:60]!r} begins like a formula: Formula(..) is one, Text(..) is a text")
    return text


def csv_data(rows: Iterable[Sequence[str]]) -> bytes:
    """Rows of fields as CSV data, every field in quotes.

    >>> csv_data([["a", 'b "c" d'], ["1"]])
    b'"a","b ""c"" d"\\n"1"\\n'
    """
    out = io.StringIO(newline="")
    csv.writer(out, lineterminator="\n", quoting=csv.QUOTE_ALL).writerows(rows)
    return out.getvalue().encode()
