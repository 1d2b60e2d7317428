"""Shown texts as exact numbers, and numbers as they are drawn: rounded, with their digits in groups."""

from __future__ import annotations

import re
from collections.abc import Iterable, Sequence
from dataclasses import dataclass
from fractions import Fraction
from typing import Any

NUMBER = re.compile(r"-?(?:0|[1-9][0-9]*)(?:\.[0-9]*[1-9]|/[1-9][0-9]*)?")
LONGEST_NUMBER = 90
ERRORS = frozenset({"#NUM!", "#DIV/0!", "#VALUE!", "#NAME?", "#N/A", "#REF!", "#CIRC!"})
MOST_PLACES = 40
MONEY = 2
FIGURES = 4
"""So many figures of the largest number are drawn at least."""

THIN, MINUS, NEARLY = "\u202f", "\u2212", "\u2248"


def exact(text: str) -> Fraction | None:
    """The number that a text spells as the program shows numbers.

    >>> exact("2.5"), exact("-1/3"), exact("007"), exact("2.50"), exact("#NUM!")
    (Fraction(5, 2), Fraction(-1, 3), None, None, None)
    """
    if len(text) > LONGEST_NUMBER or NUMBER.fullmatch(text) is None:
        return None
    whole, point, places = text.partition(".")
    if point:
        return Fraction(int(whole + places), 10 ** len(places))
    above, is_quotient, below = text.partition("/")
    return Fraction(int(above), int(below)) if is_quotient else Fraction(int(text))


def floating(number: Fraction) -> float:
    """The nearest floating-point number; of two numbers the greater has none that is less."""
    return number.numerator / number.denominator


def extremes(numbers: Sequence[Fraction]) -> tuple[Fraction, Fraction]:
    """The lowest and the highest of some numbers, exactly: those that are alike in floating point are compared.

    >>> extremes([Fraction(1, 3), Fraction(10**30 + 1, 3 * 10**30), Fraction(10**30 - 1, 3 * 10**30)])[1] - Fraction(1, 3)
    Fraction(1, 3000000000000000000000000000000)
    """
    places = [floating(number) for number in numbers]
    low, high = min(places), max(places)
    lowest = min(number for number, place in zip(numbers, places) if place == low)
    return lowest, max(number for number, place in zip(numbers, places) if place == high)


def is_error(text: str) -> bool:
    return text in ERRORS


def shown(value: Any) -> str:
    """The text that the program shows for a value of the client; a text stays as it is.

    >>> shown(Fraction(5, 2)), shown(Fraction(1, 3)), shown(True), shown(None), shown("rent")
    ('2.5', '1/3', 'TRUE', '', 'rent')
    """
    if isinstance(value, str):
        return value
    if value is None:
        return ""
    if isinstance(value, bool):
        return "TRUE" if value else "FALSE"
    if isinstance(value, (int, Fraction)):
        number = Fraction(value)
        places = decimal_places(number)
        return str(number) if places is None else spelled(number, places)
    return str(value)


def decimal_places(number: Fraction) -> int | None:
    """How many decimals write a number exactly; None where none do.

    >>> decimal_places(Fraction(5, 2)), decimal_places(Fraction(1, 3)), decimal_places(Fraction(7))
    (1, None, 0)
    """
    rest, counts = number.denominator, {2: 0, 5: 0}
    for prime in counts:
        while rest % prime == 0:
            rest //= prime
            counts[prime] += 1
    return max(counts.values()) if rest == 1 else None


def rounded(number: Fraction, places: int) -> Fraction:
    """The nearest number of so many decimals; of two, the one that is further from 0."""
    scaled = abs(number) * 10**places
    whole = (2 * scaled.numerator + scaled.denominator) // (2 * scaled.denominator)
    return Fraction(whole if number >= 0 else -whole, 10**places)


def spelled(number: Fraction, places: int) -> str:
    """A number at so many decimals, with a plain minus and without groups."""
    near = rounded(number, places)
    digits = str(abs(near.numerator) * 10**places // near.denominator).rjust(places + 1, "0")
    text = digits if places == 0 else f"{digits[:-places]}.{digits[-places:]}"
    return f"-{text}" if near < 0 else text


def grouped(text: str) -> str:
    """The digits before the point in groups of three, and a true minus.

    >>> grouped("-1234567.25") == "\u22121\u202f234\u202f567.25"
    True
    """
    whole, point, places = text.lstrip("-").partition(".")
    return (MINUS if text.startswith("-") else "") + f"{int(whole):,}".replace(",", THIN) + point + places


@dataclass(frozen=True)
class Drawn:
    """A number as it is drawn, and whether that is all of it."""

    text: str
    is_exact: bool

    @property
    def marked(self) -> str:
        """With a sign before it where it is rounded, for places without room for the exact one."""
        return self.text if self.is_exact else NEARLY + THIN + self.text


def drawn(number: Fraction, places: int, plus: bool = False) -> Drawn:
    """A number at so many decimals. One that would be drawn as 0 and isn't has its first two figures."""
    near = rounded(number, places)
    if near == 0 and number != 0:
        places = places_to_see(number)
        near = rounded(number, places)
    text = grouped(spelled(number, places))
    return Drawn(f"+{text}" if plus and near > 0 else text, near == number)


def drawn_alone(number: Fraction, plus: bool = False) -> Drawn:
    """A number that has no neighbours."""
    places = decimal_places(number)
    return drawn(number, places if places is not None and places <= FIGURES else places_for([number]), plus)


def magnitude(number: Fraction) -> int:
    """The place of the first figure: 0 for ones, 2 for hundreds, -1 for tenths."""
    above, below = abs(number).numerator, number.denominator
    power = len(str(above)) - len(str(below))
    return power if abs(number) >= Fraction(10) ** power else power - 1


def places_to_see(number: Fraction) -> int:
    return max(0, 1 - magnitude(number))


def places_for(numbers: Iterable[Fraction], places: int | None = None) -> int:
    """How many decimals are drawn of numbers that stand together, if that isn't said.

    All that they have, if these are at most two or give the largest no more than four figures. Else as few as tell neighbours apart,
    with four figures of the largest.

    >>> places_for([Fraction(5, 2), Fraction(3)]), places_for([Fraction(1, 3), Fraction(2, 3)]), places_for([Fraction(10001, 3), Fraction(10002, 3)])
    (1, 4, 1)
    """
    if places is not None:
        return places
    known = sorted(set(numbers))
    largest = max((abs(number) for number in known), default=Fraction(0))
    if largest == 0:
        return 0
    least = max(0, FIGURES - 1 - magnitude(largest))
    needed = [decimal_places(number) for number in known]
    exact_places = [count for count in needed if count is not None]
    if len(exact_places) == len(needed) and max(exact_places) <= max(MONEY, least):
        return max(exact_places)
    gap = min((after - before for before, after in zip(known, known[1:])), default=largest)
    first = max(least, -magnitude(gap) - 1)
    return next((count for count in range(first, MOST_PLACES) if tell_apart(known, count)), MOST_PLACES)


def tell_apart(known: list[Fraction], places: int) -> bool:
    """Whether numbers that are sorted and differ still do, once they are rounded."""
    near = [rounded(number, places) for number in known]
    return all(before != after for before, after in zip(near, near[1:]))
