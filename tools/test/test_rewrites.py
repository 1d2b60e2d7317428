"""Functions that are said otherwise: where they are, and where they aren't because the meaning would be another one."""

import random
import unittest
from dataclasses import replace
from decimal import Decimal, localcontext
from fractions import Fraction

from whatif.drawing.values import shown
from whatif_tools.carry import checked
from whatif_tools.document import Cell, Document, Name, Sheet
from whatif_tools.errors import ASK
from whatif_tools.helpers import Helpers
from whatif_tools.move import Places
from whatif_tools.pieces import CannotGoOver
from whatif_tools.program import run
from whatif_tools.rewrite import RULES
from whatif_tools.sheet import Address
from whatif_tools.translate import Translator

SAID = {
    "COM.MICROSOFT.IFS([.A1]>1;2;TRUE();3)": "=IF([.A1]>1;2;IF(TRUE();3;NA()))",
    "_xlfn.IFS([.A1]>1;2)": "=IF([.A1]>1;2;NA())",
    "ROWS([.A2:.B9])*2": "=8*2",
    "COLUMN()+ROW()": "=3+7",
    "CEILING([.A1]+1;0.5)": '=IF(([.A1]+1)<0;VALUE("");ROUNDUP(([.A1]+1)/0.5)*0.5)',
    "ISEVEN(7)": "=(MOD(TRUNC(7);2)=0)",
    "DATE(2026;11;30)": "=46356",
    "COM.MICROSOFT.SWITCH([.A1];1;2+3;\"a\";[.B1];9)": '=IF([.A1]=1;2+3;IF([.A1]="a";[.B1];9))',
    "COM.MICROSOFT.SWITCH([.A1];[.B1];2)": "=IF(ISERROR([.A1]);[.A1];IF(IFERROR([.A1]=[.B1];FALSE());2;NA()))",
    "COM.MICROSOFT.CEILING.MATH([.A1])": "=(-INT(-[.A1]/1)*1)",
    "MROUND([.A1];5)": "=(ROUND([.A1]/5)*5)",
    "SUMPRODUCT([.A1:.A3];[.B1:.B3])": "=SUMPRODUCT([.A1:.A3];[.B1:.B3])",
    'SUMPRODUCT(([.A1:.A3]="x")*[.B1:.B3])': "=SUM([.AA1:.AA3])",
    "margin*2": "=0.35*2",
    "2^sum": "=2^(1+2)",
    "-sum%": "=-(1+2)%",
    "twice": "=((1+2)*2)",
    "rate": "=[.$B$1]",
    "LARGE([.A1:.A9];1)": '=IF(COUNT([.A1:.A9])=0;MAX([.A1:.A9])+VALUE("");MAX([.A1:.A9]))',
    "LARGE([.$A$1:.$A$9];3)": '=IF(COUNT([.$A$1:.$A$9])<3;MAX([.$A$1:.$A$9])+VALUE("");MIN([.AA1:.AA9]))',
    "SMALL([.A2:.B3];2)": '=IF(COUNT([.A2:.B3])<2;MIN([.A2:.B3])+VALUE("");MAX([.AA2:.AB3]))',
    "ORG.LIBREOFFICE.ROUND(2.5)": "=ROUND(2.5)",
    "COUNTIF([.A1:.A9];\"<5\")": '=COUNTIF([.A1:.A9];"<5")',
    "SUMIFS([.C1:.C9];[.A1:.A9];\"a\";[.B1:.B9];[.D1])": "=(SUMIF([.AA1:.AA9];1;[.C1:.C9])+0*[.AA1])",
}
"""Formulas of a file in its cell C7, and what they are here; the first free column is Z."""

KEPT_BACK = (
    "CEILING([.A1];2;1)", "COM.MICROSOFT.FLOOR.MATH([.A1];2;1)", "COM.MICROSOFT.CEILING([.A1];[.B1])", "COM.MICROSOFT.FLOOR([.A1];-2)", "CEILING([.A1:.A3];2)",
    "COM.MICROSOFT.IFS([.A1]>1;2;3)", "COM.MICROSOFT.IFS([.A1:.A3];2)", "COM.MICROSOFT.SWITCH([.A1:.A3];1;2)", "COM.MICROSOFT.SWITCH([.A1];1)",
    "DATE([.A1];1;1)", "DATE(26;1;1)", "DATE(2026;1)", "DATE(9999;1;1)", "LARGE(5;1)",
    "LARGE([.A1:.A9];0)", "LARGE([.A1:.A9];1.5)", "SMALL([.A1:.A9];[.B1])", "LARGE([.A1:.A9]+1;2)",
    "LARGE([.A1:.A2001];2)", "SMALL([.A1:.B1001];2)", "LARGE([.A1:.A9];2;3)", "LARGE([.A1:.A9];{1;2})", "ROW([.A1:.A3])", "ROWS(5)",
    "ROWS()",
    "SUMIFS([.C1:.C9];[.A1:.A8];\"a\")", "SUMIFS([.C1:.C9];[.A1:.A9])", "SUMIFS([.C1:.C9];[.A1:.A9];[.B1:.B2])", "COUNTIFS([.A1:.A9];\"\")",
    "COUNTIFS([.A1:.A1048576];\"<>a\")", "SUMIFS([.C1:.C9]+1;[.A1:.A9];1)", "XLOOKUP([.A1];[.B1:.B9];[.C1:.C9];\"\";2)",
    "XLOOKUP([.A1];[.B1:.B9];[.C1:.D9])",
    "XLOOKUP([.A1];[.B1:.B9];[.C1:.C9];\"\";0;-1)", "PI(1)", "COUNTBLANK([.A1]+1)", "SUMSQ(1;2)", "CONCAT([.A1:.A3])", "ISODD([.A1:.A2])",
    "MEDIAN([.A1:.A3])",
    "SUMPRODUCT([.A1:.A3]&\"x\")", "SUMPRODUCT(([.A1:.A3]>1)*[.B1:.B4])", "SUMPRODUCT(([.A:.A]=1)*[.B:.B])",
    "SUMPRODUCT(SUM([.A1:.A3])*[.A1:.A3])", "SUMPRODUCT([.A1]*2)",
    "MROUND([.A1];[.B1])", "PMT(0.01;60;1000)", "NPER(0.01;-100;1000)", "nothing+1", "moves", "itself", "{1;2}", "MAXIFS([.C1:.C200000];[.A1:.A200000];1)",
    "[Other.A1]", "#REF!+1", "SUM([.A1:.A2]~[.B1])",
)
"""What stays out, since it isn't the same for every input or isn't there."""

LOOK_UPS = (
    ('XLOOKUP("b";[.A1:.A3];[.B1:.B3])', "20"),
    ('XLOOKUP("x";[.A1:.A3];[.B1:.B3])', "#N/A"),
    ('XLOOKUP("x";[.A1:.A3];[.B1:.B3];"none")', "none"),
    ('XLOOKUP("c";[.A1:.A3];[.B1:.B3];"none")', "#N/A"),
    ('XLOOKUP(1/0;[.A1:.A3];[.B1:.B3];"none")', "#DIV/0!"),
    ('XLOOKUP(NA();[.A1:.A3];[.B1:.B3];"none")', "#N/A"),
    ('_xlfn.XLOOKUP("a";[.A1:.A3];[.B1:.B3];"none";0;1)', "10"),
    ('XLOOKUP(2;[.D1:.F1];[.D2:.F2])', "8"),
    ('XLOOKUP("a";[.A1:.A3];[.B1:.B3])+1', "11"),
)
"""XLOOKUP as Microsoft's page of it says, since LibreOffice 7.4 has none; the sheet has a, b, c beside 10, 20 and #N/A, and 1, 2, 2 above 7, 8, 9."""

SHEET = "csv A1 3\na,10\nb,20\nc,\nset B3 =NA()\ncsv D1 2\n1,2,2\n7,8,9\n"


def periods(rate: Fraction, paid: Fraction, present: Fraction, future: Fraction = Fraction(0), kind: Fraction = Fraction(0)) -> Fraction:
    """NPER by its closed form."""
    if present + future == 0:
        return Fraction(0)
    if rate == 0:
        return -(present + future) / paid
    each = paid * (1 + rate * kind)
    grown = (each - future * rate) / (each + present * rate)
    with localcontext() as context:
        context.prec = 40
        logarithms = [(Decimal(number.numerator) / Decimal(number.denominator)).ln() for number in (grown, 1 + rate)]
    return Fraction(logarithms[0]) / Fraction(logarithms[1])


def shown_by(formulas: list[str], script: str, rows: int = 0, expands_loans: bool = False) -> list[str]:
    """What formulas show beside the cells of a script, with the help that they want."""
    book = replace(translator(rows or 9), expands_loans=expands_loans)
    lines = [f"set P{at} {checked(book.formula(f'={formula}'))}\n" for at, formula in enumerate(formulas, 1)]
    lines += [block.lines() for block in book.helpers.blocks.values()]
    found = {address: text for address, _, text in run((script + "".join(lines)).encode() + ASK).replies[-1].records()}
    return [found[f"P{at}"] for at in range(1, len(formulas) + 1)]


def translator(rows: int = 0) -> Translator:
    """`rows` are in use."""
    sheet = Sheet("S", {Address(rows, 1): Cell("float", "1", "1")} if rows else {})
    names = [Name("margin", expression="0.35"), Name("sum", expression="1+2"), Name("twice", expression="of:=sum*2"), Name("rate", range="$S.$B$1")]
    names += [Name("moves", expression="[.B1]*2"), Name("itself", expression="itself+1"), Name("Unused", range="$S.$B$1]+[.C1")]
    document = Document([sheet], {name.spelled.upper(): name for name in names})
    return Translator(Places(document, {"S": 0}), sheet, Address(7, 3), Helpers(26), RULES)


RANKED: tuple[tuple[str, str], ...] = (
    ("LARGE([.A1:.A8];1)", "7"), ("LARGE([.A1:.A8];2)", "5"), ("LARGE([.A1:.A8];3)", "5"), ("LARGE([.A1:.A8];4)", "1/3"),
    ("LARGE([.A1:.A8];5)", "0.333"), ("LARGE([.A1:.A8];6)", "-2"), ("LARGE([.A1:.A8];7)", "#VALUE!"),
    ("SMALL([.A1:.A8];1)", "-2"), ("SMALL([.A1:.A8];2)", "0.333"), ("SMALL([.A1:.A8];4)", "5"), ("SMALL([.A1:.A8];5)", "5"),
    ("SMALL([.A1:.A8];6)", "7"), ("SMALL([.A1:.A8];7)", "#VALUE!"), ("LARGE([.A1:.B4];3)", "8"), ("LARGE([.A1:.B4];4)", "5"),
    ("SMALL([.A1:.B4];7)", "9"), ("LARGE([.A1:.C4];2)", "#DIV/0!"), ("SMALL([.A1:.C4];99)", "#DIV/0!"), ("LARGE([.D1:.D4];2)", "#VALUE!"),
    ("LARGE([.E1:.F1];2)", "-12"), ("SMALL([.E1:.F1];2)", "1000000000000000000000000000000000000"), ("SMALL([.A1:.A8];3)*3", "1"),
    ("LARGE([.B1:.B1048576];2)", "8"), ("LARGE([.A1];2)", "#VALUE!"), ("SMALL([.B2:.B3];2)", "8"),
)
"""LARGE and SMALL of the cells below, worked out by hand; of fewer numbers LibreOffice has #VALUE!."""

COUNTS: tuple[tuple[str, ...], ...] = (
    ("[.A1]/12", "[.A2]", "[.A3]"), ("[.A1]/12", "-400", "[.A3]"), ("[.A1]/12", "-400", "[.A3]", "-500", "1"), ("0.01", "-100", "1000", "200", "0"),
    ("0.01", "-100", "-1000"), ("0.01", "0", "-1000", "2000"), ("0.01", "0", "-2000", "1000"), ("0", "-100", "1050"), ("0", "-100", "1000", "20"),
    ("0.03", "-30", "1000", "-1000"), ("0.5", "-600", "1000"), ("0.0025", "-400", "100000"), ("0.02", "-500", "500", "0", "1"),
    ("1/7", "-300", "2000"), ("0.005", "50", "0", "-12000", "1"), ("0.1", "-1000", "0", "0"), ("0.00333333333333", "-120", "10000"),
)
"""Parameters of NPER, for which the logarithm is reckoned to 40 digits."""

CELLS = {"[.A2]": "-370.59", "[.A3]": "20000"}
NO_COUNT = (
    ("NPER(0.01;-100;10000)", "#DIV/0!"), ("NPER(0.01;-90;10000)", "#VALUE!"), ("NPER(0.001;-100.1;100000)", "#REF!"),
    ("NPER(-0.01;-100;1000)", "#REF!"), ("NPER(0;0;1000)", "#DIV/0!"), ("NPER(-1;-100;1000)", "#DIV/0!"), ("NPER(\"x\";1;2)", "#VALUE!"),
)
"""Interest alone or less is paid, more than 600 periods, a rate below 0, no payment."""

TO_RANK = (
    "csv A1 8\n5,9\nword,8\n5,8\n1/3,-1\n,\n7\n0.333\n-2\nset C1 =1/0\nset C2 =NA()\nset D1 'x\nset D2 TRUE\n"
    "set E1 1000000000000000000000000000000000000\nset F1 -12\n"
)


class Rewrites(unittest.TestCase):
    def test_what_is_said(self) -> None:
        for formula, said in SAID.items():
            self.assertEqual(translator().formula(f"of:={formula}"), said)

    def test_what_is_kept_back(self) -> None:
        for formula in KEPT_BACK:
            with self.subTest(formula):
                with self.assertRaises(CannotGoOver):
                    checked(translator().formula(f"of:={formula}"))

    def test_look_ups(self) -> None:
        script = SHEET + "".join(f"set H{at} {translator().formula('=' + formula)}\n" for at, (formula, _) in enumerate(LOOK_UPS, 1))
        shown = {address: text for address, _, text in run(script.encode() + ASK).replies[-1].records()}
        self.assertEqual([shown[f"H{at}"] for at in range(1, len(LOOK_UPS) + 1)], [text for _, text in LOOK_UPS])

    def test_ranks(self) -> None:
        self.assertEqual(shown_by([formula for formula, _ in RANKED], TO_RANK), [text for _, text in RANKED])

    def test_ranks_of_any_cells(self) -> None:
        """They are those of the sorted numbers, wherever texts, empty cells and equal numbers stand."""
        random.seed(82)
        contents = ["", "word", "'5", "3", "3", "3", "2.5", "-1/7", "0", "1e9"]
        script, formulas, expected = "", [], []
        for at in range(12):
            rows, columns = random.choice(((7, 1), (1, 6), (3, 2)))
            cells = [[random.choice(contents) for _ in range(columns)] for _ in range(rows)]
            top = 10 * at + 1
            script += f"csv A{top} {rows}\n" + "".join(",".join(cell or '""' for cell in line) + "\n" for line in cells)
            numbers = sorted(Fraction(cell) for line in cells for cell in line if cell[-1:].isdigit() and cell[0] != "'" and cell != "1e9")
            place = f"[.A{top}:.{'ABCDEF'[columns - 1]}{top + rows - 1}]"
            for k in (1, 2, 4):
                formulas += [f"LARGE({place};{k})", f"SMALL({place};{k})"]
                expected += [shown(numbers[-k]), shown(numbers[k - 1])] if len(numbers) >= k else ["#VALUE!"] * 2
        self.assertEqual(shown_by(formulas, script, rows=120), expected)

    def test_counts_of_periods(self) -> None:
        """NPER is the closed form's logarithm, but for a millionth; where its steps don't reach, or there is none, it is an error."""
        formulas = [f"NPER({';'.join(parameters)})" for parameters in COUNTS]
        for parameters, text in zip(COUNTS, shown_by(formulas, "set A1 0.0425\nset A2 -370.59\nset A3 20000\n", expands_loans=True)):
            with self.subTest(parameters):
                known = [Fraction("0.0425") / 12 if part == "[.A1]/12" else Fraction(CELLS.get(part, part)) for part in parameters]
                self.assertLess(abs(Fraction(text) - periods(*known)), Fraction(1, 10**6), text)
        self.assertEqual(shown_by([formula for formula, _ in NO_COUNT], "", expands_loans=True), [text for _, text in NO_COUNT])

    def test_help(self) -> None:
        """A column of help is made once for the conditions that are the same."""
        book = translator()
        formulas = ["SUMIFS([.C1:.C3];[.A1:.A3];\"a\";[.B1:.B3];[.D1])", "COUNTIFS([.A1:.A3];\"a\";[.B1:.B3];[.D1])", "COUNTIFS([.A1:.C1];1)"]
        said = [book.formula(f"={formula}") for formula in formulas]
        self.assertEqual(said, ["=(SUMIF([.AA1:.AA3];1;[.C1:.C3])+0*[.AA1])", "=SUM([.AA1:.AA3])", "=SUM([.AC1:.AE1])"])
        criterion = 'COUNTIF([.B1];[.$D$1])+(ISBLANK([.B1])+ISERROR([.B1]))*(LEFT([.$D$1];2)="<>")*(LEN([.$D$1])>2)'
        lines = [
            '# AA1:AA3: 1 where A1:A3 meets "a" and B1:B3 meets [.D1]\n',
            f'set AA1 =COUNTIF([.A1];"a")*({criterion})\nfill AA1 AA2:AA3\n',
            "# AC1:AE1: 1 where A1:C1 meets 1\nset AC1 =COUNTIF([.A1];1)\nfill AC1 AC1:AE1\n",
        ]
        written = (f"# {block.told()}\n{block.lines()}" for block in book.helpers.blocks.values())
        self.assertEqual("".join(written), "".join(lines))

    def test_help_that_was_in_vain(self) -> None:
        helpers = Helpers(3)
        mark = helpers.mark()
        helpers.block(1, 5, 2, "=1", "nothing")
        helpers.back_to(mark)
        self.assertEqual((helpers.blocks, helpers.column, helpers.cells), ({}, 3, 0))
