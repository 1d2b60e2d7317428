"""The model of examples/sweep, worked out by Python's fractions."""

from fractions import Fraction

from tests.support.rounding import rounded


def left(size: str, part: str, price: str, cost: str) -> Fraction:
    """What is left of 20 years' income when the roof is paid for."""
    output, income = Fraction(1), Fraction(0)
    kilowatt_hour = Fraction(part) * Fraction(price) + (1 - Fraction(part)) * Fraction("0.08")
    for _ in range(20):
        income += rounded(Fraction(size) * 950 * output * kilowatt_hour, 2)
        output = rounded(output * Fraction("0.995"), 6)
    return income - Fraction(size) * Fraction(cost)
