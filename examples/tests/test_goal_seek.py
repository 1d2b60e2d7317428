"""The goal seek, beside a search through all consumptions."""

import unittest
from fractions import Fraction

from examples.tests.replies import Example
from tests.support.rounding import rounded, shown

CENT = Fraction(1, 100)


def dearer_by(consumption: Fraction, fee: int = 9) -> Fraction:
    """What the tariff with steps costs above the flat one."""
    steps = [(Fraction(100), "0.21"), (Fraction(200), "0.29"), (consumption, "0.38")]
    bill, left = Fraction("11.90"), consumption
    for size, price in steps:
        bill += min(left, size) * Fraction(price)
        left -= min(left, size)
    return bill - (consumption * Fraction("0.33") + fee)


def first_dearer(fee: int) -> Fraction:
    """The least consumption from 300 kWh on, in whole kWh, at which the flat tariff isn't dearer."""
    return next(Fraction(at) for at in range(300, 5001) if dearer_by(Fraction(at), fee) >= 0)


class GoalSeekTest(unittest.TestCase):
    example = Example("goal_seek")

    def test_model(self) -> None:
        values = self.example.labels("show A1:B5")
        self.assertEqual(values["bill with steps"], shown(dearer_by(Fraction(420)) + Fraction("147.6")))
        self.assertEqual(values["bill of the flat tariff"], "147.6")
        self.assertEqual(values["with steps dearer by"], shown(dearer_by(Fraction(420))))

    def test_halving(self) -> None:
        low, high = Fraction(300), Fraction(5000)
        wanted = [["lowest", "highest", "middle", "with steps dearer by"]]
        for _ in range(21):
            middle = rounded((low + high) / 2, 2)
            wanted.append([shown(low), shown(high), shown(middle), shown(dearer_by(middle))])
            low, high = (middle, high) if dearer_by(middle) < 0 else (low, middle)
        self.assertEqual(self.example.records("show D1:G22"), wanted)

    def test_answer(self) -> None:
        answer = first_dearer(9)
        self.assertLess(dearer_by(answer - CENT), 0)
        self.assertEqual(
            self.example.records("show A7:C8"),
            [
                ["the flat tariff is cheaper above", shown(answer), shown(dearer_by(answer))],
                ["", shown(answer - CENT), shown(dearer_by(answer - CENT))],
            ],
        )

    def test_other_fees(self) -> None:
        wanted = []
        for fee in (5, 15, 40):
            answer = first_dearer(fee)
            self.assertLess(dearer_by(answer - CENT, fee), 0)
            wanted.append([str(fee), shown(answer)])
        self.assertEqual(self.example.records("table B7 B2 I1:I3"), wanted)


if __name__ == "__main__":
    unittest.main()
