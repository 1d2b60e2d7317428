"""Random scripts of tables over chains of formulas, so that the entries of a table are valued by plans where few values may be kept.

Column A has a chain, of which each formula reads the one above, E a shorter one that only the second input reaches, and D formulas that no
input reaches. The inputs stand in B1 to B4, what they are given in C and in X1 to Z1.
"""

from collections.abc import Callable, Mapping
from random import Random

INPUTS = ["B1", "B2", "B3", "B4"]
GIVEN = 14
"""How many cells of C have something."""
SIDE = 6
"""How many formulas stand in D, and in E."""
SESSIONS = ["main", "ana"]
FAR = ["B5", "B6", "F1", "G2"]
"""Cells that no formula of the chain reads, but for B5 and B6, which those of D read."""

# {p} is the cell above, {q} one further up, {b} an input, {d} a cell of D or E, {r} a range, {n} a small number, {k} one from 1 to 4.
WHOLE: dict[str, float] = {
    "MOD({p}*3+{b};97)": 6, "{p}+{b}": 5, "{p}-{q}": 3, "({p}+{q})/2": 2, "MOD({p};7)*{b}": 3, "{p}*0.5": 3, "-{p}": 1, "{p}/{b}": 1, "{p}/({q}-{n})": 1,
    "IF({p}>{b};{p}-{b};{q}+{n})": 6, "IF({p}<{n};{q};{p}+{b})": 5, "IF({p}={p};{q})": 1, "IF(MOD({p};2)=0;{p}/2;{p}*3+1)": 3, "IF(ISERROR({p});{n};{p})": 2,
    "IFERROR({p};{n})": 4, "IFERROR({p}/{b};{q}+{n})": 2, "IFERROR({p}+{b};{b})": 2, "IFNA({p};{b})": 1, "CHOOSE(MOD({p};3)+1;{p};{q};{b})": 1,
    "MIN({p};{b};50)+MAX({q};{n})": 2, "ROUND({p}/7;2)": 3, "INT({p})": 2, "SUM({r})-{p}": 3, "MOD(SUM({r};{p});1000)": 3, "{p}+COUNT({r})": 2,
    "COUNTIF({r};\">\"&{b})+{p}": 2, "SUMIF({r};\">\"&{n})+MOD({p};10)": 1, "SUMPRODUCT({r};{r})/({p}+1)": 0.5, "{p}+IFNA(MATCH({b};[.C1:.C14];0);1)": 2,
    "IFNA(VLOOKUP({p};[.B1:.C14];2;FALSE());{p})": 2, "INDEX([.B1:.B4];{k})+{p}": 2, "INDEX({r};1)+{p}": 1, "MATCH({n};{r})+MOD({p};5)": 0.5,
    "VLOOKUP({n};[.C1:.C14];1)+{p}": 0.5, "LEN({p})+{b}": 1, "{p}&\"\"": 0.5, "VALUE(\"0\"&{n})+{p}": 0.5, "ISNUMBER({p})+{q}": 0.5,
}  # fmt: skip
"""Formulas that evaluate the one above, whatever it shows, and so the whole chain: a plan takes no more evaluations than what is done without it."""
PARTED: dict[str, float] = {
    "IF({q}<{n};{p};{p}+{d})": 4, "IF({b}={n};{d};{p})": 3, "IF({b}>{n};{p};{q})": 3, "IFERROR({d};{p})": 1, "CHOOSE({k};{p};{q};{d};{b})": 1,
    "CHOOSE(MOD({b};3)+1;{p};{q};{d})": 1, "{p}+{d}": 6, "MAX({p};{d})": 2, "IFNA(MATCH({b};[.C1:.C14];0);{p})": 1, "NA()": 0.2, "{p}+SUM([.C1:.E2])": 1,
    "IFNA(VLOOKUP({b};[.C1:.D14];2;FALSE());{p})": 1,
}  # fmt: skip
"""Those that evaluate the one above at times alone, or read what stands beside the chain."""
WHAT_IFS = ["MULTIPLE.OPERATIONS({p};{i};{c})", "{p}+MULTIPLE.OPERATIONS({q};{i};{c})", "IF({b}>{n};{p};MULTIPLE.OPERATIONS({q};{i};{c};{j};{c}))"]
CONSTANTS = ["0", "1", "2", "3", "5", "8", "-4", "0.5", "2.75", "10", "1/3", "40", "true", "text", "'5", "#N/A"]
STEPS: dict[str, float] = {
    "table": 14, "table_again": 14, "table_of_two": 6, "input": 6, "link": 7, "side": 3, "far": 3, "given": 3, "scenario": 3, "use": 3, "session": 2,
    "cycle": 2, "what_if": 1.5, "clear": 1, "show": 3, "fill": 0.7, "what_ifs": 1.5,
}


class ChainMaker:
    """Makes one script."""

    def __init__(self, random: Random) -> None:
        self.random = random
        self.length = random.randint(10, 40)
        self.parted, self.side = random.choices([(0.0, 1), (0.03, 1), (0.06, 2), (0.3, SIDE)], [3, 3, 2, 1])[0]
        """How many of the chain's formulas are parted, and how far down in D and E they read."""
        self.tables: list[str] = []
        self.scenarios: list[str] = []
        self.sessions = ["main"]
        self.makers: dict[str, Callable[[], list[str]]] = {
            "table": self.table, "table_again": self.table_again, "table_of_two": self.table_of_two, "input": self.input, "link": self.link,
            "side": self.beside, "far": self.far, "given": self.given, "scenario": self.scenario, "use": self.use, "session": self.session,
            "cycle": self.cycle, "what_if": self.what_if, "clear": self.clear, "show": self.show, "fill": self.fill, "what_ifs": self.what_ifs,
        }  # fmt: skip

    # ---- cells and formulas

    def one(self, choices: list[str]) -> str:
        return self.random.choice(choices)

    def pick(self, weights: Mapping[str, float]) -> str:
        return self.random.choices(list(weights), list(weights.values()))[0]

    def constant(self) -> str:
        return self.one(CONSTANTS) if self.random.random() < 0.3 else str(self.random.randint(-9, 30))

    def input_cell(self) -> str:
        return self.random.choices(INPUTS, [8, 4, 1, 1])[0]

    def root(self) -> str:
        """The chain's end mostly."""
        return f"A{self.length}" if self.random.random() < 0.8 else f"A{self.random.randint(self.length // 2, self.length)}"

    def area(self, row: int) -> str:
        """A rectangle above a row, or of constants."""
        first = self.random.randint(max(1, row - 6), row - 1)
        last = self.random.randint(first, row - 1)
        return self.random.choices([f"[.A{first}:.A{last}]", f"[.A{first}:.B{last}]", "[.B1:.B4]", "[.C1:.C14]"], [6, 3, 2, 1])[0]

    def formula(self, template: str, row: int) -> str:
        """A formula of the chain that stands in this row."""
        above, beside = row - 1, f"{self.one(['D', 'E'])}{self.random.randint(1, self.side)}"
        return "=" + template.format(
            p=f"[.A{above}]", q=f"[.A{max(1, above - self.random.randint(0, 4))}]", b=f"[.{self.input_cell()}]", d=f"[.{beside}]",
            r=self.area(row), n=self.random.randint(0, 9), k=self.random.randint(1, 4), i=f"[.{self.one(INPUTS[:2])}]", j=f"[.{self.one(INPUTS[2:])}]",
            c=f"[.C{self.random.randint(1, GIVEN)}]",
        )  # fmt: skip

    def chained(self, row: int) -> str:
        """The formula of the chain in a row."""
        if row == 1:
            return self.one(["=[.B1]", "=[.B1]*2+1", "=[.B1]+[.B2]", "=IF([.B1]>3;[.B1];[.B2])"])
        return self.formula(self.pick(PARTED if self.random.random() < self.parted else WHOLE), row)

    def side_formula(self, column: str, row: int) -> str:
        """A formula of D, which no input reaches, or of E, which the second alone does."""
        above, constant = (f"[.{column}{row - 1}]" if row > 1 else "1"), self.one(["[.B2]"] if column == "E" else ["[.B5]", "[.B6]"])
        return "=" + self.one([f"{above}+{constant}", f"{above}*2", f"IF({constant}>3;{above};{constant})", f"SUM({above};{constant};2)"])

    def edit(self, *words: str) -> str:
        """An edit. Where there are several sessions it is forced mostly."""
        return " ".join(["force", *words] if len(self.sessions) > 1 and self.random.random() < 0.9 else words)

    def put(self, cell: str, text: str) -> str:
        return self.edit("set", cell, text)

    # ---- steps

    def table(self) -> list[str]:
        first, count = self.random.randint(1, 3), self.random.randint(5, GIVEN)
        column = f"C{first}:C{min(first + count, GIVEN + 1)}"
        if self.random.random() < 0.1:
            column = self.one([f"A1:A{self.length // 2}", "D1:D6", "B1:B6", "E1:E6"])
        tried = self.one([self.input_cell()] * 9 + [f"A{self.random.randint(1, self.length)}"])
        self.tables.append(f"table {self.root()} {tried} {column}")
        return [self.tables[-1]]

    def table_again(self) -> list[str]:
        return [self.one(self.tables[-3:])] if self.tables else self.table()

    def table_of_two(self) -> list[str]:
        first, second = self.random.sample(INPUTS[:3], 2)
        if self.random.random() < 0.1:
            second = first
        self.tables.append(f"table {self.root()} {first} C1:C{self.random.randint(3, 6)} {second} X1:Z1")
        return [self.tables[-1]]

    def input(self) -> list[str]:
        return [self.put(self.input_cell(), self.constant())]

    def link(self) -> list[str]:
        row = self.random.randint(1, self.length)
        return [self.put(f"A{row}", self.chained(row))]

    def beside(self) -> list[str]:
        column, row = self.one(["D", "E"]), self.random.randint(1, SIDE)
        return [self.put(f"{column}{row}", self.side_formula(column, row))]

    def far(self) -> list[str]:
        return [self.put(self.one(FAR), self.constant())]

    def given(self) -> list[str]:
        cell = self.one([f"C{self.random.randint(1, GIVEN)}", f"{self.one(['X', 'Y', 'Z'])}1"])
        return [self.put(cell, self.one([self.constant(), self.constant(), "=1/0", f"=[.D{SIDE}]+1", "=[.B2]*2"]))]

    def scenario(self) -> list[str]:
        name = self.one(["s", "t"])
        if name not in self.scenarios:
            self.scenarios.append(name)
        cell = self.one([self.input_cell(), self.input_cell(), f"A{self.random.randint(1, self.length)}", "B5", f"E{SIDE}"])
        return [f"scenario {name} {cell} {self.constant()}"]

    def use(self) -> list[str]:
        return [f"use {self.one(self.scenarios)}" if self.scenarios and self.random.random() < 0.7 else "use", *self.table_again()]

    def session(self) -> list[str]:
        name = self.one(SESSIONS)
        if name not in self.sessions:
            self.sessions.append(name)
        return [f"as {name}", *self.table_again()]

    def cycle(self) -> list[str]:
        """Closes a cycle through the chain, or beside it, and opens it again."""
        row = self.random.randint(2, self.length)
        cell, text = self.one([f"A{row}", f"D{min(row, SIDE)}"]), f"=[.A{self.random.randint(row, self.length)}]"
        if cell.startswith("D"):
            text = f"=[.{cell}]"
        opened = self.chained(row) if cell.startswith("A") else self.side_formula("D", min(row, SIDE))
        return [self.put(cell, text), *self.table_again(), self.put(cell, opened), *self.table_again()]

    def what_if(self) -> list[str]:
        """A formula of the chain with a what-if, and mostly one without it later."""
        row = self.random.randint(2, self.length)
        lines = [self.put(f"A{row}", self.formula(self.one(WHAT_IFS), row)), *self.table_again()]
        return [*lines, self.put(f"A{row}", self.chained(row)), *self.table_again()] if self.random.random() < 0.7 else lines

    def what_ifs(self) -> list[str]:
        """A column of what-ifs over the chain."""
        formula = f"=MULTIPLE.OPERATIONS([.A{self.length}];[.B1];[.C1])"
        return [self.put("H1", formula), self.edit("fill", "H1", f"H2:H{GIVEN}"), f"show H1:H{GIVEN}"]

    def clear(self) -> list[str]:
        row = self.random.randint(1, self.length)
        return [self.edit("clear", self.one([f"A{row}", f"B{self.random.randint(1, 4)}", "D2:E3"])), *self.table_again()]

    def show(self) -> list[str]:
        return [self.one([f"show A1:A{self.length}", f"show A{self.length}", "show D1:E6", "changes", f"export A1:E{self.length}"])]

    def fill(self) -> list[str]:
        row = self.random.randint(2, self.length - 1)
        return [self.edit("fill", f"A{row}", f"A{row + 1}:A{min(row + 3, self.length)}")]

    # ---- the script

    def opening(self) -> list[str]:
        lines = [f"set {cell} {self.random.randint(1, 9)}" for cell in [*INPUTS, "B5", "B6"]]
        lines += [f"set C{row} {self.constant()}" for row in range(1, GIVEN + 1)]
        lines += [f"set {column}1 {self.constant()}" for column in "XYZ" if self.random.random() < 0.9]
        lines += [f"set {column}{row} {self.side_formula(column, row)}" for column in "DE" for row in range(1, SIDE + 1)]
        return lines + [f"set A{row} {self.chained(row)}" for row in range(1, self.length + 1)]

    def script(self) -> bytes:
        lines = [*self.opening(), *self.table()]
        for _ in range(self.random.randint(6, 16)):
            lines += self.makers[self.pick(STEPS)]()
        lines += [*self.table_again(), f"show A1:A{self.length}", "changes"]
        return "".join(f"{line}\n" for line in lines).encode()


def chain_script(seed: int, number: int) -> bytes:
    """The script of this number in the run of this seed."""
    return ChainMaker(Random(f"{seed}:{number}")).script()
