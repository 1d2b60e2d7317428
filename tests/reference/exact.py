"""Numbers of the reference: fractions in lowest terms whose parts fit into 127 bits, and their texts."""

import re
import sys
from collections.abc import Callable
from fractions import Fraction
from math import lcm

sys.set_int_max_str_digits(0)

MAX = 2**127 - 1
SHOWN_PLACES = 12


class Overflow(Exception):
    """The result doesn't fit."""


class ZeroDenominator(Exception):
    """A quotient by zero, or zero to a negative power."""


def fit(x: Fraction) -> Fraction:
    if abs(x.numerator) > MAX or x.denominator > MAX:
        raise Overflow
    return x


def add(x: Fraction, y: Fraction) -> Fraction:
    """The sum over the least common denominator. It overflows where that denominator, a scaled numerator or their sum does."""
    common = lcm(x.denominator, y.denominator)
    left = x.numerator * (common // x.denominator)
    right = y.numerator * (common // y.denominator)
    if max(common, abs(left), abs(right), abs(left + right)) > MAX:
        raise Overflow
    return Fraction(left + right, common)


def subtract(x: Fraction, y: Fraction) -> Fraction:
    return add(x, -y)


def multiply(x: Fraction, y: Fraction) -> Fraction:
    return fit(x * y)


def divide(x: Fraction, y: Fraction) -> Fraction:
    if y == 0:
        raise ZeroDenominator
    return fit(x / y)


def power(x: Fraction, exponent: int) -> Fraction:
    if x == 0 and exponent < 0:
        raise ZeroDenominator
    if abs(x) not in (0, 1) and abs(exponent) > 127:
        raise Overflow
    if abs(x) in (0, 1):
        exponent = exponent % 2 if x == -1 else min(abs(exponent), 1)
    return fit(x**exponent)


def truncate(x: Fraction) -> int:
    size = abs(x.numerator) // x.denominator
    return size if x >= 0 else -size


def away(x: Fraction) -> int:
    size = -(-abs(x.numerator) // x.denominator)
    return size if x >= 0 else -size


def half_away(x: Fraction) -> int:
    size = (2 * abs(x.numerator) + x.denominator) // (2 * x.denominator)
    return size if x >= 0 else -size


def round_to(x: Fraction, places: int, whole: Callable[[Fraction], int]) -> Fraction:
    """x times a power of ten, made whole, times the reciprocal of that power; both products may overflow."""
    if not -38 <= places <= 38:
        raise Overflow
    scale = Fraction(10) ** places
    return multiply(Fraction(whole(multiply(x, fit(scale)))), fit(1 / scale))


# ---- texts


def decimal_text(x: Fraction, places: int) -> str:
    """The exact decimal with the fewest places, where so many are enough."""
    used = next(k for k in range(places + 1) if (10**k * x).denominator == 1)
    digits = str(abs((10**used * x).numerator))
    if used:
        digits = digits.rjust(used + 1, "0")
        digits = digits[:-used] + "." + digits[-used:]
    return ("-" if x < 0 else "") + digits


def shown(x: Fraction) -> str:
    if 10**SHOWN_PLACES % x.denominator == 0:
        return decimal_text(x, SHOWN_PLACES)
    return f"{x.numerator}/{x.denominator}"


READ = re.compile(r"([-+]?)(?:([0-9]+)(?:\.([0-9]+))?|([0-9]+)/([0-9]+))", re.ASCII)


def read(text: str) -> Fraction | None:
    """The number that a text spells."""
    spelled = READ.fullmatch(text)
    if not spelled:
        return None
    sign, whole, places, above, below = spelled.groups()
    try:
        if whole is not None:
            x = scaled(whole + (places or ""), -len(places or ""))
        elif int(below) == 0 or max(int(above), int(below)) > MAX:
            return None
        else:
            x = fit(Fraction(int(above), int(below)))
    except Overflow:
        return None
    return -x if sign == "-" else x


def scaled(digits: str, exponent: int) -> Fraction:
    """The digits times a power of ten."""
    significant = digits.lstrip("0")
    kept = significant.rstrip("0")
    exponent += len(significant) - len(kept)
    if not kept:
        return Fraction(0)
    # Beyond these no number fits: a digit before so many zeros, or a denominator of at least two to this power.
    if len(kept) + exponent > 40 or exponent < -127:
        raise Overflow
    return fit(Fraction(int(kept)) * Fraction(10) ** exponent)
