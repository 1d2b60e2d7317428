"""The place of a syntax error, and the program's own verdict on the same formulas."""

import os
import unittest
from collections import Counter

from formulas import Formulas
from whatif_tools.formula import TOKEN, Kind, fault
from whatif_tools.program import run

FORMULAS = int(os.environ.get("WHATIF_FORMULAS") or 2_000)
SEED = 20_261_127

PLACES = (
    ("=A1+1", "E05", "A1+1"),
    ("=SUM(A1:A3)", "E05", "A1:A3)"),
    ("=$A$1", "E05", "$A$1"),
    ("=[A1]", "E05", "[A1]"),
    ("=[.A1:A3]*2", "E05", "[.A1:A3]*2"),
    ("=ROUND([.A1],2)", "E05", ",2)"),
    ("=2,5*2", "E05", ",5*2"),
    ("=IF([.A1]>1;;5)", "E05", ";5)"),
    ("=IF(1>0;yes;no)", "E05", "yes;no)"),
    ("=TRUE", "E05", "TRUE"),
    ("=(1+2", "E05", ""),
    ("=(1+2))", "E05", ")"),
    ("=1;2", "E05", ";2"),
    ("=(1;2)", "E05", ";2)"),
    ("=1 2", "E05", "2"),
    ('="a""', "E05", '"a""'),
    ("==1", "E05", "=1"),
    ("=1+", "E05", ""),
    ("=", "E05", ""),
    ("=\u0661", "E05", "\u0661"),
    ("=MULTIPLE.OPERATIONS([.A1];[.B1];5)", "E05", "5)"),
    ("=MULTIPLE.OPERATIONS([.A1];[.B1])", "E05", ")"),
    ("=MULTIPLE.OPERATIONS([.A1];[.B1];[.C1];[.D1])", "E05", ")"),
    ("=MULTIPLE.OPERATIONS([.A1:.A1];[.B1];[.C1])", "E05", "[.A1:.A1];[.B1];[.C1])"),
    ("=1+[.XFE1]*,", "E04", "[.XFE1]*,"),
    ("=1+1e39", "E07", "1e39"),
    ("=" + "(" * 65 + "1", "E06", "(1"),
    ("=" + "-" * 65 + "1", "E06", "-1"),
    ("=" + "1+" * 2048 + "1", "E08", "=" + "1+" * 2048 + "1"),
)
"""A formula, how it is refused, and what stands from the place of the fault on."""

GOOD = (
    "=1",
    "of:= 1 + .5e3 ",
    "=-+-2^-3%%",
    "=TRUE()",
    "=Sum ( [.A1:.$B$7] ; 1 )",
    '=""""&"a""b"',
    "=multiple.operations([.A1];[.$B$1];[.C1];[.D1];[.E1])*2",
    "=0e999999999",
    "=" + "(" * 64 + "1" + ")" * 64,
    "=" + "1+" * 2047 + "1",
)


FOLLOWS = ("", "1", "(1)", "[.A1]", "[.A1];[.A1]", "[.A1];[.A1];[.A1]", ";[.A1]", ";[.A1];[.A1]")
"""What may come next in a formula, before the parentheses that are still open."""


def verdicts(formulas: list[str]) -> list[str | None]:
    """How the program refuses each formula."""
    script = "".join(f"set A1 {formula}\n" for formula in formulas)
    return [reply.code for reply in run(script.encode()).replies]


def completed(prefix: str, follows: tuple[str, ...]) -> list[str]:
    """The ways tried to go on from the beginning of a formula."""
    return [prefix + more + ")" * closed for more in follows for closed in range(prefix.count("(") + 2)]


def beyond(formula: str, place: int) -> list[str]:
    """The same with the token at the place of the fault. A name alone goes on with a parenthesis: it is wrong if that isn't there."""
    found = TOKEN.match(formula, place)
    if found is None:
        return []
    follows = tuple(more for more in FOLLOWS if found.lastgroup != Kind.NAME.name or not more.startswith("("))
    return completed(formula[: found.end()] + " ", follows)


class Places(unittest.TestCase):
    def test_places(self) -> None:
        for formula, code, rest in PLACES:
            with self.subTest(formula[:60]):
                found = fault(formula)
                assert found is not None
                self.assertEqual((found.code, formula[found.place :]), (code, rest))
        self.assertEqual(verdicts([formula for formula, _, _ in PLACES]), [code for _, code, _ in PLACES])

    def test_good_formulas(self) -> None:
        for formula in GOOD:
            with self.subTest(formula[:60]):
                self.assertIsNone(fault(formula))
        self.assertEqual(verdicts(list(GOOD)), [None] * len(GOOD))

    def test_random_formulas(self) -> None:
        """A formula is refused exactly where the tool has a place, and with the same code."""
        maker = Formulas(SEED)
        formulas = [maker.make() for _ in range(FORMULAS)]
        said = verdicts(formulas)
        self.assertEqual(len(said), len(formulas))
        for formula, code in zip(formulas, said):
            found = fault(formula)
            self.assertEqual(None if found is None else found.code, code, formula)
        seen = Counter(said)
        for code in (None, "E04", "E05", "E06", "E07"):
            self.assertGreater(seen[code], len(formulas) // 100, f"too few formulas are {code}")

    def test_places_of_random_formulas(self) -> None:
        """What is before the place of a syntax error can become a formula, and with the token there it can't."""
        maker = Formulas(SEED + 1)
        formulas = [maker.make() for _ in range(FORMULAS // 10)]
        places = [(formula, found.place) for formula in formulas if (found := fault(formula)) is not None and found.code == "E05"]
        before = [completed(formula[:place], FOLLOWS) for formula, place in places]
        after = [beyond(formula, place) for formula, place in places]
        said = iter(verdicts([one for tried in (*before, *after) for one in tried]))
        for (formula, place), tried in zip(places, before):
            self.assertIn(None, [next(said) for _ in tried], (formula, place))
        for (formula, place), tried in zip(places, after):
            self.assertNotIn(None, [next(said) for _ in tried], (formula, place))
        self.assertGreater(len(places), len(formulas) // 4)
