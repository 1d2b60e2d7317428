"""The break-even study, worked out by counting pieces."""

import unittest
from dataclasses import dataclass, replace

from examples.tests.replies import Example


@dataclass(frozen=True)
class Plan:
    """Costs, price and pieces of a year."""

    fixed: int = 12000
    price: float = 8
    variable: float = 5
    pieces: int = 5000

    def profit(self) -> int:
        """All of these plans have whole profits; halves are exact in floating point."""
        profit = self.pieces * self.price - self.pieces * self.variable - self.fixed
        assert profit == int(profit)
        return int(profit)

    def break_even(self) -> str:
        """The first count of pieces without a loss, found by trying one after the other."""
        if self.price <= self.variable:
            return "#N/A"
        return str(next(n for n in range(100_000) if replace(self, pieces=n).profit_above_zero()))

    def profit_above_zero(self) -> bool:
        return self.pieces * (self.price - self.variable) >= self.fixed


PLAN = Plan()
LEAN = replace(PLAN, fixed=9000)
LEANER = replace(LEAN, variable=4.5)


def summary(plan: Plan) -> list[str]:
    """What B5, B6, B8 and B9 show."""
    dear = replace(plan, price=9)
    return [plan.break_even(), str(plan.profit()), str(dear.profit()), str(replace(dear, pieces=4000).profit())]


def compared(before: Plan, after: Plan) -> list[list[str]]:
    pairs = zip(("B5", "B6", "B8", "B9"), summary(before), summary(after))
    return [[address, one, other, str(int(other) - int(one))] for address, one, other in pairs]


class BreakEvenTest(unittest.TestCase):
    example = Example("break_even")

    def test_plan(self) -> None:
        values = self.example.labels("show A1:B6")
        self.assertEqual([values["pieces to break even"], values["profit at the plan"]], summary(PLAN)[:2])

    def test_profit_by_pieces_and_price(self) -> None:
        wanted = [["", "7", "8", "9"]]
        for pieces in range(0, 7000, 1000):
            profits = [str(replace(PLAN, pieces=pieces, price=price).profit()) for price in (7, 8, 9)]
            wanted.append([str(pieces), *profits])
        self.assertEqual(self.example.records("export D1:G8"), wanted)

    def test_break_even_by_price(self) -> None:
        wanted = [[str(price), replace(PLAN, price=price).break_even()] for price in (4.5, 7, 8, 9)]
        self.assertEqual(self.example.records("table B5 B2 I1:I4"), wanted)

    def test_what_if_of_a_what_if(self) -> None:
        self.assertEqual([value for _, value in self.example.records("show A8:B9")], summary(PLAN)[2:])
        wanted = [["", "12000", "15000"]]
        for pieces in (3000, 5000):
            dear = replace(PLAN, price=9, pieces=pieces)
            wanted.append([str(pieces), *(str(replace(dear, fixed=fixed).profit()) for fixed in (12000, 15000))])
        self.assertEqual(self.example.records("table B8 B4 K2:K3 B1 L1:M1"), wanted)

    def test_scenarios(self) -> None:
        self.assertEqual(self.example.records("compare - lean B5:B9"), compared(PLAN, LEAN))
        self.assertEqual(self.example.records("compare lean leaner B5:B9"), compared(LEAN, LEANER))
        shown = [value for label, value in self.example.records("show A1:B9") if label]
        self.assertEqual(shown, ["9000", "8", "4.5", "5000", *summary(LEANER)])

    def test_a_scenario_in_use_stays(self) -> None:
        self.assertEqual(self.example.refusals(), [("drop lean", "E12")])


if __name__ == "__main__":
    unittest.main()
