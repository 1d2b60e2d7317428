"""Scales from numbers to places, and the round numbers that are written at them."""

from __future__ import annotations

import math
from dataclasses import dataclass
from fractions import Fraction

from .values import decimal_places, drawn, magnitude

RAISED = str.maketrans("-0123456789", "\u207b\u2070\u00b9\u00b2\u00b3\u2074\u2075\u2076\u2077\u2078\u2079")
LONGEST, SMALLEST = 9, -5
"""The powers of ten from which on a number is written with its exponent."""


@dataclass(frozen=True)
class Scale:
    """The numbers from low to high, at the places from start to end."""

    low: Fraction
    high: Fraction
    start: float
    end: float

    def at(self, number: Fraction) -> float:
        return self.start + float((number - self.low) / (self.high - self.low)) * (self.end - self.start)


def widened(low: Fraction, high: Fraction) -> tuple[Fraction, Fraction]:
    """A range with some room at both ends, which has its 0 for an end where it began there."""
    if low == high:
        room = abs(low) / 10 or Fraction(1)
        return low - room, high + room
    room = (high - low) / 20
    return (low if low == 0 else low - room), (high if high == 0 else high + room)


def ticks(low: Fraction, high: Fraction, wanted: int) -> list[Fraction]:
    """Round numbers from low to high, at most so many and some more than half of it.

    >>> [str(tick) for tick in ticks(Fraction(0), Fraction(7, 10), 4)]
    ['0', '1/5', '2/5', '3/5']
    """
    step = round_step((high - low) / wanted)
    first = math.ceil(low / step)
    return [step * count for count in range(first, math.floor(high / step) + 1)]


def round_step(least: Fraction) -> Fraction:
    """The least of 1, 2 and 5 times a power of ten that isn't below a number."""
    power = Fraction(10) ** magnitude(least)
    return next(power * times for times in (1, 2, 5, 10) if power * times >= least)


def tick_texts(numbers: list[Fraction]) -> list[str]:
    """Round numbers as they are written: all of them exactly, with as many decimals as one has, or each with a power of ten."""
    largest = max((abs(number) for number in numbers), default=Fraction(0))
    if largest and not SMALLEST <= magnitude(largest) < LONGEST:
        return [with_power(number) for number in numbers]
    places = max((decimal_places(number) or 0 for number in numbers), default=0)
    return [drawn(number, places).text for number in numbers]


def with_power(number: Fraction) -> str:
    """A round number as a short one and a power of ten.

    >>> with_power(Fraction(10) ** 37) == "1\u00b710\u00b3\u2077"
    True
    """
    if number == 0:
        return "0"
    power = magnitude(number)
    part = number / Fraction(10) ** power
    return f"{drawn(part, decimal_places(part) or 0).text}\u00b710{str(power).translate(RAISED)}"
