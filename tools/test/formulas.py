"""Random formulas: good ones, good ones with a wrong character, and tokens in any order."""

import random
from collections.abc import Callable

ATOMS = ("1", "2.5", ".5", "1e3", "2.5E-4", "7", '"a"', '"a ""b"""', '""', "[.A1]", "[.$b$7]", "[.A1:.B$7]", "TRUE()", "NA ( )")
OPERATORS = ("+", "-", "*", "/", "^", "&", "=", "<>", "<", "<=", ">", ">=")
NAMES = ("SUM", "if", "Round", "PMT", "A1", "_x.y", "E", "MULTIPLE.OPERATIONS.X")
RARE = ("[.XFE1]", "[.A1048577]", "[.A1:.ZZZZ9]", "1e39", "170141183460469231731687303715884105728", "0e999999999", "1e-39", "(" * 70, "-" * 70, "[.A0]")
WRONG = ("A1", "[A1]", "[.A1:A2]", "Sheet1.A1", "$A$1", "yes", "TRUE", ",", "'", "“x”", "!", ".", "[", "]", "{1;2}", "é", "1.", '"',
         "[.A 1]", "\u0663", ":", "MULTIPLE.OPERATIONS")
PIECES = (*ATOMS, *OPERATORS, *NAMES, *WRONG, "(", ")", ";", "%", "[.A1];[.B1]", "[.A1];[.B1];[.C1]", "multiple.operations(")
LETTERS = "[].:;()+-*/^%&=<>\"'$,AE15e _\t"
DEEPEST = 5


class Formulas:
    """Makes formulas from a seed."""

    def __init__(self, seed: int) -> None:
        self.random = random.Random(seed)

    def make(self) -> str:
        ways: tuple[Callable[[], str], ...] = (self.good, self.good, self.changed, self.changed, self.rare, self.loose)
        prefix = self.random.choice(("=", "=", "=", "of:="))
        return prefix + self.random.choice(ways)()

    def good(self) -> str:
        return self.compare(0)

    def changed(self) -> str:
        """A good formula in which a place was deleted, doubled, or filled with something wrong."""
        formula = self.good()
        place = self.random.randrange(len(formula) + 1)
        way = self.random.randrange(4)
        if way == 0:
            return formula[:place] + formula[place + 1 :]
        if way == 1:
            return formula[:place]
        added = self.random.choice(WRONG) if way == 2 else self.random.choice(LETTERS)
        return formula[:place] + added + formula[place:]

    def rare(self) -> str:
        """A good formula with what a limit is about in one place."""
        formula = self.good()
        place = self.random.randrange(len(formula) + 1)
        return formula[:place] + self.random.choice(RARE) + formula[place:]

    def loose(self) -> str:
        return "".join(self.blank() + self.random.choice(PIECES) for _ in range(self.random.randrange(9)))

    def compare(self, depth: int) -> str:
        count = self.random.choice((1, 1, 1, 2, 3))
        parts = [self.operand(depth)]
        for _ in range(count - 1):
            parts += [self.random.choice(OPERATORS), self.operand(depth)]
        return "".join(part + self.blank() for part in parts)

    def operand(self, depth: int) -> str:
        signs = "".join(self.random.choice(("", "", "", "-", "+ ")) for _ in range(2))
        return signs + self.atom(depth) + self.random.choice(("", "", "", "%", " %%"))

    def atom(self, depth: int) -> str:
        way = self.random.randrange(6 if depth < DEEPEST else 3)
        if way < 3:
            return self.random.choice(ATOMS)
        if way == 3:
            return f"({self.blank()}{self.compare(depth + 1)})"
        if way == 4:
            return self.random.choice(NAMES) + self.blank() + "(" + ";".join(self.compare(depth + 1) for _ in range(self.random.randrange(1, 4))) + ")"
        return self.what_if()

    def what_if(self) -> str:
        cells = [self.random.choice(("[.A1]", "[.$B$2]", " [.c3] ", "[.D4]")) for _ in range(self.random.choice((3, 5)))]
        if self.random.random() < 0.2:
            cells[self.random.randrange(len(cells))] = self.random.choice(("1", "[.A1:.A1]", "([.A1])", "", "[.A1];[.B1]"))
        return self.random.choice(("MULTIPLE.OPERATIONS", "Multiple.Operations")) + self.blank() + "(" + ";".join(cells) + ")"

    def blank(self) -> str:
        return self.random.choice(("", "", "", "", " ", "\t", "  "))
