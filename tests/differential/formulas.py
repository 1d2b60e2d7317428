"""Random formulas, from templates by the kind of what they give."""

import re

from tests.differential import contents
from tests.differential.draft import Area, Cell, Draft, Kind, letters
from whatif_tools.sheet import COLUMNS, ROWS

# A placeholder is {n} a number, {z} one that isn't zero, {e} a small whole number, {d} a number of places, {p} a place, {t} a text,
# {l} a truth value, {v} any value, {r} a range, {s} another of the same size, {w} one of one row or column, {i} items, {q} a criterion,
# {x} the greatest number, {m} a what-if.
TEMPLATES: dict[Kind, dict[str, float]] = {
    "number": {
        "{n}+{n}": 6, "{n}-{n}": 5, "{n}*{n}": 5, "{n}/{z}": 4, "{n}^{e}": 2, "{n}%": 2, "(100/{x})%*{x}": 0.4, "-{n}": 2, "+{n}": 1, "({n})": 2,
        "{n}*({n}+{n})": 3,
        "{m}": 10, "{m}+{n}": 3, "ABS({n})": 1, "SIGN({n})": 1, "INT({n})": 1.5, "ROUND({n};{d})": 3, "ROUND({n})": 1.5, "ROUND({n}/{z};{d})": 1,
        "ROUND({n}/2)": 1.5, "ROUND({n}/20;1)": 0.7,
        "ROUNDUP({n};{d})": 1, "ROUNDUP({n})": 0.5, "ROUNDDOWN({n};{d})": 1, "ROUNDDOWN({n})": 0.5, "TRUNC({n};{d})": 1, "TRUNC({n})": 0.5,
        "QUOTIENT({n};{z})": 1, "MOD({n};{z})": 1.5, "POWER({n};{e})": 1, "SUM({i})": 5, "PRODUCT({i})": 1.5, "MIN({i})": 1.5, "MAX({i})": 1.5,
        "AVERAGE({i})": 1.5, "COUNT({i})": 1.5, "COUNTA({i})": 1.5, "SUMPRODUCT({r};{s})": 1.5, "SUMPRODUCT({r})": 0.5, "SUMPRODUCT({r};{s};{s})": 0.5,
        "COUNTIF({r};{q})": 4, "SUMIF({r};{q})": 2, "SUMIF({r};{q};{s})": 2, "IF({l};{n};{n})": 3, "IF({l};{n})": 0.5, "IFERROR({n};{n})": 2,
        "IFNA({n};{n})": 1, "CHOOSE({p};{n};{n};{n})": 1.5, "VALUE({t})": 0.3, "VALUE({n})": 0.5, "IFERROR(VALUE({t});{n})": 1,
        "MATCH({v};{w};0)": 1, "IFNA(MATCH({v};{w};0);0)": 2, "MATCH({n};{w})": 3, "MATCH({n};{w};1)": 1, "MATCH({n};{w};-1)": 2, "MATCH({t};{w})": 1,
        "INDEX({r};{p};{p})": 1, "INDEX({w};{p})": 1.5, "VLOOKUP({v};{r};{p};FALSE())": 0.7, "VLOOKUP({n};{r};{p})": 1.5,
        "IFNA(VLOOKUP({v};{r};1;{l});-1)": 1, "HLOOKUP({v};{r};{p};FALSE())": 0.5, "HLOOKUP({n};{r};{p})": 1.5, "IFNA(HLOOKUP({v};{r};1;{l});-1)": 1,
        "LEN({t})": 1.5, "FIND({t};{t}&{t})": 0.5, "IFERROR(FIND({t};{t};{p});0)": 1, "IFERROR({v};{n})": 1, "{n}+{v}": 0.4, "NA()": 0.2, "1/0": 0.1,
    },
    "text": {
        "{t}&{t}": 5, "{t}&{v}": 2, "LEFT({t};{p})": 1.5, "LEFT({t})": 1, "RIGHT({t};{p})": 1.5, "RIGHT({t})": 1, "MID({t};{p};{p})": 2,
        "CONCATENATE({t};{v};{t})": 1.5, "CONCATENATE({v})": 0.5, "REPT({t};{p})": 1.5, "IF({l};{t};{t})": 2, "IFERROR({t};{t})": 1, "IFNA({t};{t})": 0.7,
        "CHOOSE({p};{t};{t};{t})": 1, "INDEX({r};{p};{p})": 0.7, "({t})": 0.5, "+{t}": 0.5, "{n}&\"\"": 1, "REPT({t};32767)": 0.1, "REPT({t};{n})": 0.4,
        "{m}&\"\"": 1,
    },
    "truth": {
        "{n}={n}": 2, "{n}<{n}": 2, "{n}>={n}": 2, "{n}<>{n}": 1, "{t}={t}": 1.5, "{t}<{t}": 1, "{t}<={t}": 0.7, "{v}={v}": 1.5, "{v}<{v}": 1,
        "{v}>{v}": 1, "{v}<>{v}": 1, "NOT({l})": 1.5, "AND({l};{l})": 1, "OR({l};{l})": 1, "AND({i})": 1, "OR({i})": 1, "ISBLANK({v})": 1,
        "ISBLANK({m})": 2, "ISERR({v})": 0.7, "ISERROR({v})": 1.5, "ISLOGICAL({v})": 0.7, "ISNA({v})": 1, "ISNONTEXT({v})": 0.7, "ISNUMBER({v})": 1,
        "ISTEXT({v})": 1, "ISTEXT({m})": 0.5, "EXACT({t};{t})": 1, "EXACT({v};{v})": 0.5, "IF({l};{l};{l})": 1, "IF({l})": 0.5, "TRUE()": 1, "FALSE()": 1,
    },
}
LITERALS: dict[str, float] = {
    "0": 2, "1": 4, "2": 4, "3": 3, "4": 1, "10": 2, "0.5": 3, "2.5": 2, ".5": 1, "1.5": 2, "0.1": 1, "0.25": 1, "1e3": 0.5, "2.5E-1": 0.5, "1e+2": 0.5,
    "100": 1, "007": 0.3, "0.125": 0.5, "3.14159265358979323846": 0.2, "1e38": 0.1, "1e-38": 0.1, "170141183460469231731687303715884105727": 0.2,
    "0e99999": 0.1, "0.0000000000001": 0.2,
}
BROKEN = [
    "=", "=1+", "=(1", "=1)", "=SUM(1;)", "=SUM(;1)", "=1 2", "=[.A1", "=[A1]", "=[.A0]", "=\"x", "=?", "=A1", "=MULTIPLE.OPERATIONS(1;[.A1];[.B1])",
    "=MULTIPLE.OPERATIONS([.A1];[.B1])", "=MULTIPLE.OPERATIONS(([.A1]);[.B1];[.C1])", "=MULTIPLE.OPERATIONS([.A1:.A1];[.B1];[.C1])",
    "=multiple.operations([.A1];[.B1];[.C1];[.D1])", "=FOO", "=1.", "=1e", "=.5.5", "= =1", "=[.A1] [.B1]", "=[.XFE1]", "=[.A1048577]", "=[.B1]+[.A1:.XFE2]",
    "=1e39", "=170141183460469231731687303715884105728", "=1e-39", "=[.XFE1]+1e99", "=1e99+?", "=?+1e99", "=[.XFE1", "=" + "(" * 65 + "1" + ")" * 65,
    "=" + "-" * 65 + "1", "=1+" + "-" * 64 + "1", "=" + "(" * 65 + "?", "=?" + "(" * 65, "=1e99" + "(" * 65, "=1" + " " * 4_095, "=%1", "=1%%^", "=2;3",
    "=SUM(1,2)", "==1", "=@", "=1\u00a0", "=é()", "='x'", "=[.$$A1]", "=[.A$1:B2]", "=[.A1:.B0]", "=[ .A1]",
]
UNUSUAL = [
    "=" + "(" * 64 + "1" + ")" * 64, "=" + "-" * 64 + "1", "=1" + " " * 4_094, "of:=1+1", "=FOO(1/0)", "=ABS()", "=ABS(1;2)", "=PI()", "=2^3^2", "=-2^2",
    "=2^-1%", "=50%%", "=1e100*0", "=0^0", "=0^-1", "=0^-0.5", "=2^0.5", "=-1^9999999", "=2^127", "=2^126-1+2^126", "=ROUND(0;39)", "=ROUND(5;-38)",
    "=MOD(-7;3)", "=MOD(7;-3)", "=1/3*3=1", "=0.1+0.2=0.3", "=\"a\"\"b\"", "=1<2<3", "=\"é\"<\"z\"", "=\"\ud7ff\"<\"😀\"", "=\"\uffee\"<\"😀\"",
    "=LEN(\"😀a\u0301\")", "=SUM(TRUE();\"1\")", "=COUNT(1;\"2\";1/0)", "=IF(1;2;1/0)", "=_x.y(1)", "= SUM ( 1 ; 2 )", "=sum(1;2)", "=Sum(1;\t2)",
    "=(1/170141183460469231731687303715884105727)%", "=(100/170141183460469231731687303715884105727)%", "=(50/170141183460469231731687303715884105727)%",
    "=(200/170141183460469231731687303715884105726)%",
    "=REPT(\"x\";32767)&\"y\"", "=REPT(\"é\";16384)",
    "=CONCATENATE(REPT(\"x\";32767);\"y\";1/0)", "=REPT(\"\";1e30)", "=" + "1+" * 2_040 + "1", "=SUM(" + ";".join("1" for _ in range(300)) + ")",
    "=1e" + "0" * 50 + "1", "=0." + "0" * 200 + "1e201", "=1" + "0" * 100 + "e-100", "=INDEX([.A1:.B2];0;9)", "=CHOOSE(0;1/0)", "=CHOOSE(3;1;2)",
]
TOKENS = re.compile(r'"(?:[^"]|"")*"|\[[^\]]*\]|[A-Za-z_][A-Za-z0-9_.]*|(?:[0-9]+(?:\.[0-9]+)?|\.[0-9]+)(?:[eE][-+]?[0-9]+)?|<>|<=|>=|.', re.DOTALL)


class Formulas:
    """Makes formulas for one cell after another."""

    def __init__(self, draft: Draft, what_ifs: float = 1) -> None:
        self.draft = draft
        self.what_ifs = what_ifs
        self.cell: Cell = (0, 0)
        self.depth = 0
        self.named: list[Cell] = []
        self.last = Area(0, 0, 1, 1)

    def formula(self, cell: Cell, kind: Kind) -> str:
        """A formula for a cell; the cells that it names are noted."""
        draft = self.draft
        self.cell, self.named = cell, []
        self.depth = draft.pick({1: 4, 2: 4, 3: 1.5, 4: 0.4})
        if draft.chance(3):
            return draft.one(UNUSUAL)
        body = self.expression(kind)
        if draft.chance(6):
            body = self.spaced(body)
        if draft.chance(4):
            body = body.lower()
        return ("of:=" if draft.chance(3) else "=") + body

    def broken(self) -> str:
        """A formula that is most probably refused."""
        draft = self.draft
        if draft.chance(60):
            return draft.one(BROKEN)
        tokens = TOKENS.findall(self.formula(draft.cell(), "number"))
        at = draft.random.randrange(1, len(tokens) + 1)
        tokens[at : at + draft.random.randint(0, 1)] = [draft.one(["(", ")", ";", "+", "?", '"', "[.A1]", "1e99", "[.XFE1]", "%", "=", "."])]
        return "".join(tokens)

    def spaced(self, body: str) -> str:
        return "".join(token + self.draft.pick({"": 6, " ": 3, "  ": 1, "\t": 0.5}) for token in TOKENS.findall(body))

    # ---- expressions

    def expression(self, kind: Kind) -> str:
        if self.depth <= 0:
            return self.leaf(kind)
        self.depth -= 1
        weights = TEMPLATES[kind]
        if self.what_ifs != 1:
            weights = {template: weight * (self.what_ifs if "{m}" in template else 1) for template, weight in weights.items()}
        made = self.filled_in(self.draft.pick(weights))
        self.depth += 1
        return made

    def filled_in(self, template: str) -> str:
        return re.sub(r"\{(\w)\}", lambda found: self.part(found[1]), template)

    def operand(self, kind: Kind) -> str:
        """An operand, mostly a leaf, and else in parentheses mostly."""
        if self.draft.chance(55):
            return self.leaf(kind)
        made = self.expression(kind)
        return f"({made})" if self.draft.chance(70) and re.search(r"[-+*/^&=<>%]", made) else made

    def part(self, name: str) -> str:
        draft = self.draft
        match name:
            case "n":
                return self.operand("number")
            case "t":
                return self.operand("text")
            case "l":
                return self.operand("truth")
            case "v":
                return self.operand(draft.pick({"number": 4, "text": 3, "truth": 1}))
            case "z":
                return draft.one(["2", "3", "4", "0.5", "-2", "7", "10"]) if draft.chance(75) else self.leaf("number")
            case "e":
                return draft.one(["2", "3", "0", "1", "-1", "2"]) if draft.chance(90) else self.leaf("number")
            case "d":
                return draft.one(["0", "1", "2", "1", "2", "-1", "3", "1.9"]) if draft.chance(95) else self.leaf("number")
            case "p":
                return draft.one(["1", "2", "1", "2", "3", "1.5"]) if draft.chance(88) else self.leaf("number")
            case "r":
                return self.range(3, 3)
            case "s":
                return self.same_size()
            case "w":
                return self.range(*draft.one([(5, 1), (5, 1), (1, 4)]))
            case "i":
                return ";".join(self.item() for _ in range(draft.pick({1: 6, 2: 2, 3: 1})))
            case "q":
                return self.criterion()
            case "x":
                return str(contents.MAX)
        return self.what_if()

    def item(self) -> str:
        if self.draft.chance(70):
            return self.range(4, 3)
        return self.operand(self.draft.pick({"number": 12, "truth": 1, "text": 0.3}))

    def criterion(self) -> str:
        draft = self.draft
        if draft.chance(60):
            return '"' + draft.one(contents.CRITERIA).replace('"', '""') + '"'
        if draft.chance(30):
            return f'"{draft.one(["<", ">", "<>", "<=", ">=", "="])}"&{self.leaf("number")}'
        return self.leaf(contents.kind(draft))

    def leaf(self, kind: Kind) -> str:
        draft = self.draft
        if draft.chance(68):
            return self.reference(self.readable(kind))
        if kind == "number":
            return draft.pick(LITERALS)
        if kind == "text":
            return '"' + contents.text(draft).replace('"', '""').replace("\r", "") + '"'
        return draft.one(["TRUE()", "FALSE()", "1=1"])

    # ---- cells

    def readable(self, kind: Kind) -> Cell:
        """A cell to be read, mostly of this kind and without closing a cycle."""
        draft = self.draft
        if draft.chance(1.2):
            return draft.cell()
        areas = draft.before(self.cell)
        if not areas:
            return draft.cell() if draft.chance(10) else self.outside()
        found = [cell for area in areas for cell in area.cells() if draft.kinds.get(cell) == kind]
        if found and draft.chance(93):
            return draft.one(found)
        return draft.one(draft.one(areas).cells())

    def outside(self) -> Cell:
        """A cell beside the area, which is empty mostly."""
        area = self.draft.area
        row = self.cell[0]
        column = area.right + 1 if area.right + 1 < COLUMNS else area.left - 1
        return row, column

    def corner(self, cell: Cell) -> str:
        draft = self.draft
        column, row = letters(cell[1]), str(cell[0] + 1)
        if draft.chance(3):
            column = column.lower()
        return "." + ("$" if draft.chance(15) else "") + column + ("$" if draft.chance(15) else "") + row

    def reference(self, cell: Cell) -> str:
        self.named.append(cell)
        corner = self.corner(cell)
        return f"[{corner}:{self.corner(cell)}]" if self.draft.chance(1.5) else f"[{corner}]"

    def range(self, rows: int, columns: int) -> str:
        draft = self.draft
        areas = draft.before(self.cell)
        if draft.chance(1.2) or not areas:
            return self.spelled(draft.inner(draft.area, 2, 2))
        whole = draft.one(areas)
        if draft.chance(4):
            return self.spelled(self.tall_or_wide(whole))
        least = max((draft.inner(whole, rows, columns) for _ in range(2)), key=lambda area: area.rows * area.columns)
        return self.spelled(least)

    def tall_or_wide(self, whole: Area) -> Area:
        """A rectangle that goes to the edge of the sheet, beside or above the cell."""
        draft = self.draft
        row, column = self.cell
        if whole.left <= column <= whole.right:
            return Area(0, 0, row, COLUMNS) if draft.downwards and row else whole
        if draft.downwards and draft.rightwards and column:
            return draft.one([Area(0, 0, ROWS, column), Area(whole.top, 0, whole.rows, column)])
        return whole

    def same_size(self) -> str:
        """A range of the size of the last one, mostly."""
        draft, last = self.draft, self.last
        fitting = [area for area in draft.before(self.cell) if area.rows >= last.rows and area.columns >= last.columns]
        if not fitting or draft.chance(5):
            return self.range(3, 3)
        whole = draft.one(fitting)
        top = draft.random.randint(whole.top, whole.bottom - last.rows + 1)
        left = draft.random.randint(whole.left, whole.right - last.columns + 1)
        return self.spelled(Area(top, left, last.rows, last.columns))

    def spelled(self, area: Area) -> str:
        draft = self.draft
        self.last = area
        if area.rows * area.columns <= 64:
            self.named += area.cells()
        corners = (area.top, area.left), (area.bottom, area.right)
        if draft.chance(5):
            corners = (area.bottom, area.left), (area.top, area.right)
        text = f"[{self.corner(corners[0])}:{self.corner(corners[1])}]"
        if area.rows * area.columns == 1 and draft.chance(50):
            text = f"[{self.corner(corners[0])}]"
        return f"({text})" if draft.chance(3) else text

    # ---- what-ifs

    def what_if(self) -> str:
        """A what-if on a formula cell, mostly with inputs on which it depends."""
        draft = self.draft
        before = [cell for area in draft.before(self.cell) for cell in area.cells()]
        formulas = [cell for cell in before if cell in draft.named]
        if not formulas:
            return self.leaf("number")
        nested = [cell for cell in formulas if any(named in draft.named for named in draft.named[cell])]
        formula_cell = draft.one(nested if nested and draft.chance(60) else formulas)
        cells = [formula_cell]
        for _ in range(2 if draft.chance(35) else 1):
            cells += self.pair(formula_cell, before, cells[1:])
        self.named += [formula_cell, *cells[2::2]]
        parts = ";".join(f"[{self.corner(cell)}]" for cell in cells)
        return f"MULTIPLE.OPERATIONS({parts})"

    def pair(self, formula_cell: Cell, before: list[Cell], others: list[Cell]) -> tuple[Cell, Cell]:
        """An input, and the cell that takes its place: filled, empty, or one that depends on the first input."""
        draft = self.draft
        inputs = draft.named_by(formula_cell)
        input_cell = draft.one(inputs) if inputs and draft.chance(88) else draft.cell()
        depending = [cell for cell in before if others and others[0] in draft.named_by(cell)]
        filled = [cell for cell in before if cell in draft.kinds]
        numbers = [cell for cell in filled if draft.kinds[cell] == "number"]
        pools = {"number": numbers, "filled": filled, "any": before, "depending": depending, "far": [self.outside()]}
        weights = {"number": 60, "filled": 10, "any": 8, "depending": 30, "far": 8}
        usable = {name: weight for name, weight in weights.items() if pools[name]}
        return input_cell, draft.one(pools[draft.pick(usable)])
