"""The tariff with steps, worked out kilowatt-hour by kilowatt-hour."""

import unittest
from dataclasses import dataclass, replace
from fractions import Fraction

from examples.tests.replies import Example
from tests.support.rounding import rounded, shown


@dataclass(frozen=True)
class Tariff:
    """A month's consumption and what is charged for it."""

    consumption: int = 420
    third: Fraction = Fraction("0.38")
    tax: Fraction = Fraction("0.19")

    def price(self, hour: int) -> Fraction:
        """The price of the kilowatt-hour of this number, counted from 1."""
        if hour <= 100:
            return Fraction("0.21")
        return Fraction("0.29") if hour <= 300 else self.third

    def step(self, first: int, last: int) -> Fraction:
        """What the kilowatt-hours of these numbers cost."""
        return sum((self.price(hour) for hour in range(first, min(last, self.consumption) + 1)), Fraction(0))

    def bill(self) -> Fraction:
        return rounded((self.step(1, self.consumption) + Fraction("11.90")) * (1 + self.tax), 2)


def difference(address: str, before: Fraction | int, after: Fraction | int) -> list[str]:
    """A record of a comparison."""
    return [address, shown(before), shown(after), shown(Fraction(after) - before)]


class TariffTest(unittest.TestCase):
    example = Example("tariff")

    def test_bill(self) -> None:
        tariff, values = Tariff(), self.example.labels("show A1:B12")
        self.assertEqual(values["step 1"], shown(tariff.step(1, 100)))
        self.assertEqual(values["step 2"], shown(tariff.step(101, 300)))
        self.assertEqual(values["step 3"], shown(tariff.step(301, 420)))
        self.assertEqual(values["bill of the month"], shown(tariff.bill()))

    def test_table(self) -> None:
        prices = ["0.34", "0.38", "0.45"]
        wanted = [["", *prices]]
        for consumption in (0, 50, 100, 200, 300, 400, 500, 600, 800):
            bills = [shown(Tariff(consumption, Fraction(price)).bill()) for price in prices]
            wanted.append([str(consumption), *bills])
        self.assertEqual(self.example.records("table B12 B1 D2:D10 B6 E1:G1"), wanted)
        self.assertEqual(self.example.records("export D1:G10"), wanted)

    def test_scenarios(self) -> None:
        plain = Tariff()
        winter = replace(plain, consumption=650)
        dear = replace(winter, third=Fraction("0.45"))
        low_tax = replace(dear, tax=Fraction("0.07"))
        self.assertEqual(
            self.example.records("compare - winter B1:B12"),
            [
                difference("B1", 420, 650),
                difference("B11", plain.step(301, 420), winter.step(301, 650)),
                difference("B12", plain.bill(), winter.bill()),
            ],
        )
        self.assertEqual(
            self.example.records("compare winter winter_dear B1:B12"),
            [
                difference("B6", Fraction("0.38"), Fraction("0.45")),
                difference("B11", winter.step(301, 650), dear.step(301, 650)),
                difference("B12", winter.bill(), dear.bill()),
            ],
        )
        self.assertEqual(
            self.example.records("compare winter_dear winter_dear_tax7 B1:B12"),
            [difference("B8", Fraction("0.19"), Fraction("0.07")), difference("B12", dear.bill(), low_tax.bill())],
        )
        self.assertEqual(
            self.example.records("compare - winter_dear_tax7 B12"), [difference("B12", plain.bill(), low_tax.bill())]
        )

    def test_nothing_is_refused(self) -> None:
        self.assertEqual(self.example.refusals(), [])


if __name__ == "__main__":
    unittest.main()
