"""Exact numbers as the program shows them, worked out by Python's fractions."""

from collections.abc import Sequence
from fractions import Fraction

LARGEST = 2**127 - 1


def rounded(number: Fraction, places: int) -> Fraction:
    """The number at so many places after the point, halves away from zero.

    >>> rounded(Fraction("-2.345"), 2)
    Fraction(-47, 20)
    """
    scaled = abs(number) * 10**places
    whole = (2 * scaled.numerator + scaled.denominator) // (2 * scaled.denominator)
    size = Fraction(whole, 10**places)
    return size if number >= 0 else -size


def shown(number: Fraction | int) -> str:
    """The shown text: a decimal if the denominator divides 10^12, else n/d; `#NUM!` if it doesn't fit.

    >>> shown(Fraction(5, 2)), shown(Fraction(-1, 3)), shown(Fraction(1, 3**90))
    ('2.5', '-1/3', '#NUM!')
    """
    number = Fraction(number)
    top, bottom = number.numerator, number.denominator
    if max(abs(top), bottom) > LARGEST:
        return "#NUM!"
    if 10**12 % bottom:
        return f"{top}/{bottom}"
    digits = f"{abs(top) * (10**12 // bottom):013d}"
    text = f"{digits[:-12]}.{digits[-12:]}".rstrip("0").rstrip(".")
    return "-" + text if top < 0 else text


def shown_rows(rows: Sequence[Sequence[Fraction | int]]) -> list[list[str]]:
    """Rows of numbers as shown texts."""
    return [[shown(number) for number in row] for row in rows]
