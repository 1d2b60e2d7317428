"""The loan to the cent: by Python's decimal numbers, and by Gnumeric's PMT where `ssconvert` is there."""

import csv
import shutil
import subprocess
import tempfile
import unittest
from dataclasses import dataclass
from decimal import ROUND_HALF_UP, Decimal, localcontext
from pathlib import Path

from examples.tests.replies import Example

CENT = Decimal("0.01")


def cents(amount: Decimal) -> Decimal:
    return amount.quantize(CENT, ROUND_HALF_UP)


@dataclass(frozen=True)
class Month:
    """A row of the schedule."""

    interest: Decimal
    principal: Decimal
    balance: Decimal


@dataclass(frozen=True)
class Loan:
    """A loan that is paid back by the same sum each month but for the last, with interest rounded each month."""

    amount: Decimal
    rate: Decimal
    months: int

    def payment(self) -> Decimal:
        """The annuity, by 60 digits of decimal arithmetic."""
        with localcontext() as context:
            context.prec = 60
            if self.rate == 0:
                return cents(self.amount / self.months)
            growth = (1 + self.rate / 12) ** self.months
            return cents(self.amount * (self.rate / 12) * growth / (growth - 1))

    def schedule(self) -> list[Month]:
        """What each month pays, and what is left to pay."""
        rows, balance, payment = [], self.amount, self.payment()
        for month in range(1, self.months + 1):
            interest = cents(balance * self.rate / 12)
            principal = balance if month == self.months else payment - interest
            balance -= principal
            rows.append(Month(interest, principal, balance))
        return rows

    def interest(self) -> Decimal:
        return sum((month.interest for month in self.schedule()), Decimal(0))

    def last_payment(self) -> Decimal:
        last = self.schedule()[-1]
        return last.interest + last.principal


SMALL = Loan(Decimal(20000), Decimal("0.0425"), 60)
MORTGAGE = Loan(Decimal(250000), Decimal("0.0385"), 360)


def months_of(records: list[list[str]]) -> list[Month]:
    """The rows of a shown schedule, without month and power."""
    return [Month(*(Decimal(value) for value in record[2:])) for record in records]


class LoanTest(unittest.TestCase):
    example = Example("loan")

    def assert_summary(self, loan: Loan, values: dict[str, str]) -> None:
        self.assertEqual(Decimal(values["payment of a month"]), loan.payment())
        self.assertEqual(Decimal(values["interest in all"]), loan.interest())
        self.assertEqual(Decimal(values["last payment"]), loan.last_payment())

    def test_summaries(self) -> None:
        self.assert_summary(SMALL, self.example.labels("show A1:B6"))
        self.assert_summary(MORTGAGE, self.example.labels("show A1:B6", 1))

    def test_schedules(self) -> None:
        small = self.example.records("show D8:H69")
        self.assertEqual(small[0], ["month", "power", "interest", "principal", "balance"])
        self.assertEqual(small[1], ["0", "1", "", "", "20000"])
        self.assertEqual(months_of(small[2:]), SMALL.schedule())
        self.assertEqual(months_of(self.example.records("show D10:H369")), MORTGAGE.schedule())

    def test_powers(self) -> None:
        for command, rate in (("show D8:H69", SMALL.rate), ("show D10:H369", MORTGAGE.rate)):
            growth = Decimal(1)
            for record in self.example.records(command):
                if record[0] in ("month", "0"):
                    continue
                with localcontext() as context:
                    context.prec = 60
                    growth = (growth * (1 + rate / 12)).quantize(Decimal("1e-12"), ROUND_HALF_UP)
                self.assertEqual(Decimal(record[1]), growth)

    def test_tables(self) -> None:
        rates, terms = ("0", "0.03", "0.0425", "0.07"), (36, 60, 120)
        loans = [[Loan(SMALL.amount, Decimal(rate), term) for term in terms] for rate in rates]
        for command, value in (("table B4 B2 J2:J5 B3 K1:M1", Loan.payment), ("table B5 B2 J2:J5 B3 K1:M1", Loan.interest)):
            head, *rows = self.example.records(command)
            self.assertEqual(head, ["", *map(str, terms)])
            self.assertEqual([row[0] for row in rows], list(rates))
            self.assertEqual(
                [[Decimal(text) for text in row[1:]] for row in rows], [[value(loan) for loan in row] for row in loans]
            )
        payments = [[rate, Loan(MORTGAGE.amount, Decimal(rate), 360).payment()] for rate in rates]
        self.assertEqual([[rate, Decimal(text)] for rate, text in self.example.records("table B4 B2 J2:J5")], payments)

    def test_scenarios(self) -> None:
        dear = Loan(SMALL.amount, Decimal("0.055"), 60)
        longer = Loan(SMALL.amount, Decimal("0.055"), 84)
        self.assert_compared(self.example.records("compare - dear B2:B6"), SMALL, dear)
        self.assert_compared(self.example.records("compare dear dear_long B2:B6"), dear, longer)

    def assert_compared(self, records: list[list[str]], before: Loan, after: Loan) -> None:
        pairs = {
            "B2": (before.rate, after.rate),
            "B3": (Decimal(before.months), Decimal(after.months)),
            "B4": (before.payment(), after.payment()),
            "B5": (before.interest(), after.interest()),
            "B6": (before.last_payment(), after.last_payment()),
        }
        wanted = [[address, *pair, pair[1] - pair[0]] for address, pair in pairs.items() if pair[0] != pair[1]]
        self.assertEqual([[record[0], *map(Decimal, record[1:])] for record in records], wanted)

    def test_nothing_is_refused(self) -> None:
        self.assertEqual(self.example.refusals(), [])


def gnumeric_sheet(loan: Loan) -> list[list[str]]:
    """The loan as formulas of Gnumeric: payment by PMT above, then a row for each month."""
    rows = [[f"=ROUND(-PMT({loan.rate}/12,{loan.months},{loan.amount}),2)", "", str(loan.amount)]]
    for month in range(1, loan.months + 1):
        row, above = month + 1, month
        principal = f"=C{above}" if month == loan.months else f"=A$1-A{row}"
        rows.append([f"=ROUND(C{above}*{loan.rate}/12,2)", principal, f"=ROUND(C{above}-B{row},2)"])
    return rows


def by_gnumeric(loan: Loan) -> list[list[Decimal]]:
    """What Gnumeric calculates for that sheet, in cents (it shows floating-point numbers)."""
    with tempfile.TemporaryDirectory() as folder:
        before, after = Path(folder, "before.csv"), Path(folder, "after.csv")
        with before.open("w", newline="") as file:
            csv.writer(file, quoting=csv.QUOTE_ALL).writerows(gnumeric_sheet(loan))
        words = ["ssconvert", "--recalc", str(before), str(after)]
        subprocess.run(words, check=True, capture_output=True, timeout=60)
        with after.open(newline="") as file:
            return [[cents(Decimal(text)) for text in row if text] for row in csv.reader(file)]


@unittest.skipUnless(shutil.which("ssconvert"), "ssconvert of Gnumeric isn't installed")
class GnumericTest(unittest.TestCase):
    example = Example("loan")

    def assert_agrees(self, loan: Loan, payment: str, records: list[list[str]]) -> None:
        head, *months = by_gnumeric(loan)
        self.assertEqual(head, [Decimal(payment), loan.amount])
        self.assertEqual([Month(*month) for month in months], months_of(records))

    def test_loan(self) -> None:
        payment = self.example.labels("show A1:B6")["payment of a month"]
        self.assert_agrees(SMALL, payment, self.example.records("show D8:H69")[2:])

    def test_mortgage(self) -> None:
        payment = self.example.labels("show A1:B6", 1)["payment of a month"]
        self.assert_agrees(MORTGAGE, payment, self.example.records("show D10:H369"))


if __name__ == "__main__":
    unittest.main()
