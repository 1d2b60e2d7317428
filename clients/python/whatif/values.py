"""Values of cells: what they are, and how they are read from the program's replies."""

from __future__ import annotations

import re
from collections.abc import Callable
from dataclasses import dataclass
from decimal import Context, Decimal
from fractions import Fraction
from typing import Any, Union

ERRORS = frozenset({"#NUM!", "#DIV/0!", "#VALUE!", "#NAME?", "#N/A", "#REF!", "#CIRC!"})
NUMBER = re.compile(r"[-+]?[0-9]+(\.[0-9]+|/0*[1-9][0-9]*)?")
LONGEST_NUMBER = 80
PLACES = 130
"""No number has more decimals than this, if they end: both sides of a fraction are at most 2^127 - 1."""


class Text(str):
    """A text, whatever it looks like: `book["A1"] = Text("=A1")` puts these three characters."""


class Formula(str):
    """A formula: `book["B4"] = Formula("=[.B1]*[.B2]")`."""


@dataclass(frozen=True)
class CellError:
    """An error that a cell shows: `CellError("#NUM!")`."""

    name: str

    def __str__(self) -> str:
        return self.name


Value = Union[Fraction, bool, str, CellError, None]
Numbers = Union[type[float], type[Decimal], type[Fraction], Callable[[Fraction], Any]]
"""What numbers are given as: float, Decimal, Fraction, or a function of your own."""


def read(text: str) -> Value:
    """A shown text as a value. It has no kind: a text that spells a number is read as the number.

    >>> read("2.5"), read("1/3"), read("TRUE"), read("#N/A"), read("rent"), read("")
    (Fraction(5, 2), Fraction(1, 3), True, CellError(name='#N/A'), 'rent', None)
    """
    if text == "":
        return None
    if text in ("TRUE", "FALSE"):
        return text == "TRUE"
    if text in ERRORS:
        return CellError(text)
    return Fraction(text) if len(text) <= LONGEST_NUMBER and NUMBER.fullmatch(text) else text


def read_kind(kind: str, text: str) -> Value:
    """A shown text of a known kind as a value.

    >>> read_kind("T", "5"), read_kind("N", "5")
    ('5', Fraction(5, 1))
    """
    if kind == "N":
        return Fraction(text)
    if kind == "L":
        return text == "TRUE"
    if kind == "E":
        return CellError(text)
    return text if kind == "T" else None


def decimal(number: Fraction) -> Decimal:
    """A number as the decimal that it is; one without an end is refused.

    >>> decimal(Fraction(17, 50)), decimal(Fraction(-3))
    (Decimal('0.34'), Decimal('-3'))
    """
    places = next((it for it in range(PLACES) if 10**it % number.denominator == 0), None)
    if places is None:
        raise ValueError(f"{number} has no end as a decimal: numbers=Fraction keeps it, numbers=float rounds it")
    return Decimal(int(number * 10**places)).scaleb(-places, Context(prec=300))


def as_numbers(value: Value, numbers: Numbers) -> Any:
    """A number as that type; any other value as it is.

    >>> as_numbers(Fraction(17, 50), float), as_numbers("rent", float)
    (0.34, 'rent')
    """
    if not isinstance(value, Fraction):
        return value
    make: Any = decimal if numbers is Decimal else numbers
    return make(value)


def shown(value: Value) -> str:
    """A value as a cell shows it: decimals if they end, else a fraction.

    >>> shown(Fraction(17, 50)), shown(Fraction(1, 3)), shown(True), shown(None)
    ('0.34', '1/3', 'TRUE', '')
    """
    if isinstance(value, bool):
        return "TRUE" if value else "FALSE"
    if isinstance(value, Fraction):
        try:
            return format(decimal(value), "f")
        except ValueError:
            return str(value)
    return "" if value is None else str(value)
