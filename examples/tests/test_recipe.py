"""The recipe, worked out from its price list."""

import csv
import math
import unittest
from dataclasses import dataclass
from fractions import Fraction

from examples.tests.replies import Example
from tests.support.rounding import LARGEST, rounded, shown, shown_rows


@dataclass(frozen=True)
class Ingredient:
    """A line of the price list."""

    name: str
    price: Fraction
    kilograms: Fraction
    part: Fraction

    def exact(self) -> Fraction:
        """What a kilogram costs that can be used."""
        return self.price / (self.kilograms * self.part)

    def cost(self) -> Fraction:
        return rounded(self.exact(), 4)


def price_list(script: str) -> list[Ingredient]:
    """The data lines of the first csv."""
    lines = script.splitlines()
    first = lines.index("csv A1 201")
    return [Ingredient(name, *map(Fraction, numbers)) for name, *numbers in csv.reader(lines[first + 2 : first + 202])]


@dataclass(frozen=True)
class Batch:
    """Prices that are another, hours of work, and the part that is lost."""

    butter: Fraction = Fraction(20)
    apples: Fraction = Fraction(9)
    hours: Fraction = Fraction("1.5")
    lost: Fraction = Fraction("0.05")


AMOUNTS = {
    "flour, wheat 550": "4",
    "butter, unsalted": "2",
    "sugar, white": "1.5",
    "egg, whole, shelled": "1.5",
    "apple, Boskoop": "6",
    "cream, sweet 30 %": "1",
    "spice, cinnamon": "0.05",
    "salt, table": "0.04",
}


class RecipeTest(unittest.TestCase):
    example = Example("recipe")
    ingredients = price_list(example.script)

    def parts(self, batch: Batch) -> list[list[Fraction]]:
        """Amount, cost of one and cost of each part, hours of work last."""
        prices = {"butter, unsalted": batch.butter, "apple, Boskoop": batch.apples}
        listed = {it.name: it for it in self.ingredients}
        rows = []
        for name, text in AMOUNTS.items():
            known = listed[name]
            one = Ingredient(name, prices.get(name, known.price), known.kilograms, known.part).cost()
            rows.append([Fraction(text), one, rounded(Fraction(text) * one, 2)])
        return [*rows, [batch.hours, Fraction(24), rounded(batch.hours * 24, 2)]]

    def total(self, batch: Batch) -> Fraction:
        return sum((row[2] for row in self.parts(batch)), Fraction(0))

    def piece(self, batch: Batch) -> Fraction:
        return rounded(self.total(batch) / (80 * (1 - batch.lost)), 2)

    def margin(self, batch: Batch) -> Fraction:
        price = Fraction("2.20")
        return rounded((price - self.piece(batch)) / price * 100, 1)

    def test_price_list(self) -> None:
        self.assertEqual(len(self.ingredients), 200)
        self.assertEqual(len({it.name for it in self.ingredients}), 200)
        wanted = [
            [it.name, *map(shown, (it.price, it.kilograms, it.part, it.cost(), it.exact()))] for it in self.ingredients[:5]
        ]
        self.assertEqual(self.example.records("show A2:F6"), wanted)

    def test_exact_costs_do_not_fit_in_a_sum(self) -> None:
        """Over their least common denominator the numerators come to more than fits."""
        exact = [it.exact() for it in self.ingredients]
        common = math.lcm(*(cost.denominator for cost in exact))
        self.assertEqual(len(str(common)), 38)
        self.assertGreater(common * sum(exact), LARGEST)
        mean = rounded(sum((it.cost() for it in self.ingredients), Fraction(0)) / 200, 2)
        self.assertEqual(self.example.records("show A202:F202"), [["mean", "", "", "", shown(mean), "#NUM!"]])

    def assert_exported(self, nth: int, batch: Batch) -> None:
        head, *rows, last = self.example.records("export H1:K11", nth)
        self.assertEqual(head, ["part", "amount", "cost of one", "cost"])
        self.assertEqual([row[0] for row in rows], [*AMOUNTS, "hours of work"])
        self.assertEqual([row[1:] for row in rows], shown_rows(self.parts(batch)))
        self.assertEqual(last, ["batch", "", "", shown(self.total(batch))])

    def test_batch(self) -> None:
        self.assert_exported(0, Batch())
        self.assert_exported(1, Batch(butter=Fraction("27.50"), apples=Fraction("13.50")))

    def test_piece(self) -> None:
        values = self.example.labels("show H13:I17")
        self.assertEqual(values["cost of a piece"], shown(self.piece(Batch())))
        self.assertEqual(values["margin, in percent of the price"], shown(self.margin(Batch())))

    def test_scenarios(self) -> None:
        butter = Batch(butter=Fraction("27.50"))
        apples = Batch(butter=Fraction("27.50"), apples=Fraction("13.50"))
        self.assert_compared(self.example.records("compare - butter E2:K17"), 1, Batch(), butter)
        self.assert_compared(self.example.records("compare butter apples E2:K17"), 4, butter, apples)

    def assert_compared(self, records: list[list[str]], row: int, before: Batch, after: Batch) -> None:
        """The comparison names the part in that row and all that reads it."""
        addresses = [f"J{row + 2}", f"K{row + 2}", "K11", "I15", "I17"]

        def values(batch: Batch) -> list[Fraction]:
            return [*self.parts(batch)[row][1:], self.total(batch), self.piece(batch), self.margin(batch)]

        pairs = zip(addresses, values(before), values(after))
        self.assertEqual(records, [[at, shown(one), shown(other), shown(other - one)] for at, one, other in pairs])

    def test_table(self) -> None:
        hours = ("1", "1.5", "2")
        wanted = [["", *hours]]
        for lost in ("0.02", "0.05", "0.1"):
            batches = [Batch(hours=Fraction(hour), lost=Fraction(lost)) for hour in hours]
            wanted.append([lost, *(shown(self.piece(batch)) for batch in batches)])
        self.assertEqual(self.example.records("table I15 I14 M2:M4 I10 N1:P1"), wanted)

    def test_a_part_that_is_not_listed(self) -> None:
        self.assertNotIn("flour, wheat 812", [it.name for it in self.ingredients])
        self.assertEqual(self.example.records("show H2:K2"), [["flour, wheat 812", "4", "#N/A", "#N/A"]])
        self.assertEqual(self.example.records("show H11:K11"), [["batch", "", "", "#N/A"]])


if __name__ == "__main__":
    unittest.main()
