"""A beginner's mistakes: each is found by whatif-check, with what to write instead, or by one search in docs/TROUBLE.md."""

import re
import tempfile
import unittest
from dataclasses import dataclass
from pathlib import Path

from pages import codes, page_of
from whatif_tools.check import Check
from whatif_tools.finding import Finding, Kind
from whatif_tools.functions import ENGLISH, FUNCTIONS, IN_FROM
from whatif_tools.line_hints import BY_CODE, WORDS
from whatif_tools.program import ROOT, program_help

TROUBLE = ROOT / "docs" / "TROUBLE.md"


@dataclass(frozen=True)
class Mistake:
    """A script, and the finding that it must have: its kind, its place and a part of what it says."""

    script: str
    kind: Kind
    place: tuple[int, int]
    says: str
    encoding: str = "utf-8"


def formula(text: str, column: int, says: str) -> Mistake:
    """A formula that is refused, at a column counted in the formula from 1."""
    return Mistake(f"set B1 {text}", Kind.REFUSED, (1, 7 + column), says)


def line(text: str, says: str, column: int = 1) -> Mistake:
    """A line that is no command."""
    return Mistake(text, Kind.REFUSED, (1, column), says)


def content(text: str, says: str) -> Mistake:
    """A content that was meant as a number."""
    return Mistake(f"set A1 {text}", Kind.TEXT_FOR_NUMBER, (1, 8), says)


FORMULAS = (
    formula("=A1+1", 2, "write [.A1]"),
    formula("=SUM(A1:A3)", 6, "write [.A1:.A3]"),
    formula("=$A$1", 2, "write [.$A$1]"),
    formula("=[A1]", 2, "write [.A1]"),
    formula("=[.A1:A3]", 2, "write [.A1:.A3]"),
    formula("=ROUND([.A1],2)", 13, "parameters are parted by ;"),
    formula("=2,5*2", 3, "decimals have a point"),
    formula("=IF([.A1]>1;;5)", 13, "write 0"),
    formula("=IF(1>0;yes;no)", 9, 'a text is written in quotes: "yes"'),
    formula("=TRUE", 2, "write TRUE()"),
    formula("=(1+2", 6, "a ) for each ("),
    formula("=LEN(“x”)", 6, "plain double quotes"),
    formula("=MULTIPLE.OPERATIONS([.A1],[.A2],[.A3])", 27, "parted by ;"),
    formula("=MULTIPLE.OPERATIONS(A1;A2;A3)", 22, "each a cell"),
    formula("=MULTIPLE.OPERATIONS([.A1];[.A2];400)", 34, "each a cell"),
    formula("=MULTIPLE.OPERATIONS([.A1];[.A2])", 33, "three or five"),
    formula("=Sheet1.A1", 2, "one sheet"),
    formula("=[Sheet1.A1]", 2, "one sheet"),
    formula("=Sheet1!A1", 2, "one sheet"),
    formula("=1+[.B2", 4, "ends with ]"),
    formula("=SUM([.B1:.B3", 6, "ends with ]"),
    formula("=1\u00a0+2", 3, "a plain one"),
    formula("==1", 2, "a value is missing before the operator"),
    formula("=[.A1]x2", 7, "a product is written with *"),
    formula("=2 X [.A1]", 4, "a product is written with *"),
    formula("=SUM([.A1]:[.A3])", 11, "write [.A1:.A3]"),
    Mistake("set A1 =PMT(0.01;60;20000)", Kind.ERROR_STARTS, (1, 1), "PMT isn't there: docs/FROM.md has what to write instead"),
    Mistake("set A1 =SUMIFS([.B1:.B2];[.C1:.C2];1)", Kind.ERROR_STARTS, (1, 1), "SUMIFS isn't there: docs/FROM.md"),
    Mistake("set A1 =1+sqrt(2)", Kind.ERROR_STARTS, (1, 1), "SQRT isn't there: docs/FROM.md"),
    Mistake("set A1 =SUMME(1;2)", Kind.ERROR_STARTS, (1, 1), "functions have their English names: write SUM for SUMME"),
    Mistake("set A1 =SI(1;2)", Kind.ERROR_STARTS, (1, 1), "write IF for SI"),
    Mistake("set A1 =AVERGE(1;2)", Kind.ERROR_STARTS, (1, 1), "is AVERAGE meant?"),
    Mistake("set A1 =FOO(1)", Kind.ERROR_STARTS, (1, 1), "docs/FUNCTIONS.md has those that are"),
    Mistake("set A1 =2^0.5", Kind.ERROR_STARTS, (1, 1), "A1 shows #NUM!"),
    Mistake("set A1 =1.05^40\nset A2 =[.A1]*2", Kind.ERROR_STARTS, (1, 1), "A1 shows #NUM!: =1.05^40"),
    Mistake("set B1 =IF(FALSE();[.B1];1)", Kind.ERROR_STARTS, (1, 1), "; B1 reads B1: take one of these references out"),
    Mistake("set A1 =[.B1]\nset B1 =[.C1]+1\nset C1 =SUM([.A1:.A9])", Kind.ERROR_STARTS, (2, 1), "; B1 reads C1, C1 reads A1, A1 reads B1: take"),
)

LINES = (
    line("Set A1 2", "lower case: write set"),
    line("A1 = 2", "write set A1 2"),
    line("set A1=2", "write set A1 2", 5),
    line("set\tA1 2", "spaces, not by tabs"),
    line("set A1 ", "clear A1 empties", 7),
    line("show A:A", "A1:A9", 6),
    line("show A1 B2", "write show A1:B2", 9),
    line("set [.A1] 5", "no brackets", 5),
    line("show A1:XFE1", "columns are A to XFD", 6),
    line("set A1048577 5", "rows 1 to 1048576", 5),
    line("quit", "Ctrl-D"),
    line("show A1 # the total", "a comment has a line of its own", 9),
    line("csv A1", "the number of data lines", 7),
    line("set B1:B3 5", "write set B1 5 and fill B1 B2:B3; its form is set ADDR CONTENT", 5),
    line("force set A1:B2 =[.C1]", "write set A1 =[.C1] and fill A1 A1:B2", 11),
    line("fill A1:A3 A1", "write fill A1 A2:A3; its form is fill ADDR RECT", 6),
    line("fill A1:C1", "write fill A1 B1:C1", 6),
    line("fill A1:A3 B1", "write fill B1 A1:A3", 6),
    line("table B4 B1 D2:D3 B2", "YROW one of one row, and F, R and C are cells; its form is table F R XCOLUMN, or table F R XCOLUMN C YROW", 21),
    line("table B4 B1 D2:E3", "XCOLUMN is a rectangle of one column", 13),
    line("compare wet B1:B4", "write compare - wet B1:B4; its form is compare S T RECT", 13),
    line("compare - winter", "its form is compare S T RECT", 17),
    line("scenario wet year B1 5", "write scenario wet_year B1 5; its form is scenario NAME ADDR CONTENT, or scenario NAME ADDR", 14),
    line("use wet year", "write use wet_year; its form is use NAME, or use", 9),
    line("export A1:B3 > out.csv", "csvout in docs/FROM.md", 14),
    line("save", "docs/FROM.md"),
    line("undo", "docs/FROM.md"),
    line("show", "its form is show RECT", 5),
    line("sett B1 3", "is set meant?"),
    line("force fil A1 A2", "is fill meant?", 7),
    line("force show A1", "force stands before set, clear, fill, csv alone; its form is force COMMAND", 7),
    line("tabel B4 B1 D2:D3", "is table meant?"),
    Mistake("scenario winter B1 5\nuse wintr", Kind.REFUSED, (2, 5), "is winter meant? the scenarios so far: winter"),
    Mistake("scenario winter B1 5\nscenario dear B2 1\ncompare - Winter B1", Kind.REFUSED, (3, 11),
            "capitals count: is winter meant? the scenarios so far: dear, winter"),
    Mistake("use winter", Kind.REFUSED, (1, 5), "scenario NAME ADDR CONTENT does"),
    Mistake("set B1 =[.A1]\nset D1 3\ntable B1 A1 D1:D3 A2 E1:G1", Kind.EMPTY_INPUT, (3, 13), "2 of the 3 cells of XCOLUMN show nothing"),
    Mistake("set B1 =[.A1]\nset D1 3\ntable B1 A1 D1:D3 A2 E1:G1", Kind.EMPTY_INPUT, (3, 22), "3 of the 3 cells of YROW show nothing"),
    Mistake("set B1 =[.A1]\nset D1 3\ntable B1 A1 D1:D2", Kind.EMPTY_INPUT, (3, 13), "1 of the 2 cells of XCOLUMN"),
    Mistake("\ufeffset A1 2", Kind.ENCODING, (1, 1), "byte order mark"),
    Mistake("set A1 2\nshow A1", Kind.ENCODING, (1, 1), "UTF-16", "utf-16"),
    Mistake("set A1 2\nshow A1", Kind.ENCODING, (1, 1), "UTF-16", "utf-16-le"),
    Mistake("set A1 2\nshow A1", Kind.ENCODING, (1, 1), "UTF-16", "utf-16-be"),
    Mistake("set A1 Müller", Kind.REFUSED, (1, 9), "save the script as UTF-8", "latin-1"),
    Mistake("csv A1 1\nMüller", Kind.REFUSED, (1, 1), "save the CSV as UTF-8", "latin-1"),
    Mistake("set A1 1\nas ana\nset A1 2", Kind.REFUSED, (3, 1), "changes"),
)

CONTENTS = (
    content("12,5", "write 12.5"),
    content("12%", "write 0.12"),
    content("1e6", "write 1000000"),
    content(".5", "write 0.5"),
    content("1,000.50", "write 1000.50"),
    content("$5", "write 5"),
    content("2 ", "write 2"),
    content("true", "write TRUE"),
    content("2026-01-31", "there are no dates"),
    content("1e-07", "write 0.0000001"),
    content("\u22125", "write -5"),
    content("1\u00a0000", "write 1000"),
    content("5\u00a0", "write 5"),
    content("12 kWh", "write 12, and the unit, kWh, into another cell"),
    content("-2,5m3", "write -2.5"),
    content(".5 h", "write 0.5"),
    Mistake("set A1 [.B1]*2", Kind.FORMULA_AS_TEXT, (1, 8), "write =[.B1]*2"),
    Mistake("set A1 +[.B1]", Kind.FORMULA_AS_TEXT, (1, 8), "write =+[.B1]"),
    Mistake("set A1 SUM([.B1:.B2])", Kind.FORMULA_AS_TEXT, (1, 8), "write =SUM([.B1:.B2])"),
    Mistake("set A1 SUM(B1:B2)", Kind.FORMULA_AS_TEXT, (1, 8), "write =SUM([.B1:.B2])"),
    Mistake("set A1 3 * 4", Kind.FORMULA_AS_TEXT, (1, 8), "write =3 * 4"),
    Mistake("scenario s A1 [.B1]*2", Kind.FORMULA_AS_TEXT, (1, 15), "show the value of =[.B1]*2 first"),
    Mistake("scenario s A1 12%", Kind.TEXT_FOR_NUMBER, (1, 15), "write 0.12"),
    Mistake("scenario s A1 =[.B1]*2", Kind.FORMULA_AS_TEXT, (1, 15), "a text, no formula"),
    Mistake('set A1 "hello"', Kind.QUOTES_KEPT, (1, 8), "write hello"),
    Mistake("set A1 5 # five", Kind.COMMENT_KEPT, (1, 10), "a line of its own"),
    Mistake("set A1 1\nscenario s A1 9\nuse s\nset A1 5", Kind.REPLACED, (4, 1), "A1 goes on showing its replacement"),
)

DATA = (
    Mistake("csv A1 3\n1,2\n3,4\nshow A1:B2", Kind.COMMAND_AS_DATA, (4, 1), "is the number behind csv too large?"),
    Mistake("csv A1 3\n1,2", Kind.REFUSED, (1, 1), "counts lines"),
    Mistake('csv A1 1\n"a\nb",2', Kind.REFUSED, (3, 1), "a line of CSV?"),
    Mistake("csv A1 2\n1;2,5\n3;4", Kind.SEMICOLONS, (2, 1), "parted by commas"),
    Mistake("csv A1 3\nn,yield\na,85%\nb,90%", Kind.COLUMN_OF_TEXTS, (3, 1), "field 2: '85%' and 1 more below are texts"),
    Mistake("csv A1 1\n=1+1", Kind.FORMULA_AS_TEXT, (2, 1), "write set"),
    Mistake("csv A1 2\nn,twice\na,[.B1]*2", Kind.FORMULA_AS_TEXT, (3, 1), "write set for =[.B1]*2"),
    Mistake('csv A1 4\nname,price\nfig,2\n"plum,4.50\nquince,3', Kind.OPEN_QUOTE, (4, 1), "this quote isn't closed, so one field takes the rest"),
    Mistake('csv A1 3\nname,price\nfig,"2"" wide\nplum,3', Kind.OPEN_QUOTE, (3, 5), "close it"),
    Mistake('csv A1 9\n"a\nb', Kind.OPEN_QUOTE, (2, 1), "close it"),
    Mistake("csv A1 3\nname,price\nplum,4,50\nfig,2", Kind.MORE_FIELDS, (3, 1), "3 fields, where the first line of the data has 2: a decimal has a point"),
    Mistake("csv A1 3\nwater,price\n30 m3,5\n31 m3,6", Kind.COLUMN_OF_TEXTS, (3, 1), "field 1: '30 m3' and 1 more below are texts"),
    Mistake("csv A1 4\nname,price\na,5\nb,n/a\nc,6", Kind.COLUMN_OF_TEXTS, (4, 1),
            "field 2: 'n/a' is a text, no number; the other fields of this column are numbers"),
    Mistake("csv A1 2\na\r12%\r13%\n7", Kind.COLUMN_OF_TEXTS, (2, 1), "field 1: '12%' and 1 more below are texts"),
    Mistake('csv A1 3\r\nname,price\r\nfig,2\r\n"plum,4.50\r\n', Kind.OPEN_QUOTE, (4, 1), "close it"),
    Mistake("csv A1 4\n4\n5\nx\n6", Kind.COLUMN_OF_TEXTS, (4, 1), "field 1: 'x' is a text"),
)

SEARCHED = (
    ("`whatif script`", "whatif < script"),
    ("`--load` without a file", "--load"),
    ("head -1", "can't be written"),
    ("a terminal", "Ctrl-D"),
    ("exit status", "0 also"),
    ("Windows", "CR"),
    ("waits for ever", "no reply"),
)
"""What no script shows: words that a reader searches on the page, and what the line that has them says."""

MEANT = ("refused E12", "refused E18")
"""The examples show what it is like to be refused; other findings there are errors in cells, which they show too."""

LABELS = ("m3 in block", "2026 plan", "12 apples", "kWh", "A1", "A1-B2", "10-12", "1/2/3", "+49 30 1234", "see [.A1]", "SUM", "B2 (old)", "C++",
          "x * y", "Max (night)")
"""Texts that are meant as such."""

GOOD = (
    "# a comment\n\nset A1 12.5\nset A2 'a text\nset A3 =SUM([.A1:.A2];1)\nset A4 TRUE\nset A5 1/3\nset A6 '2026-01-31\nset A7 plain words\r\nshow A1:A7\n",
    "csv A1 2\n2026-01-31,bolt,0.12\n2026-02-01,nut,-3/4\n",
    "".join(f"set A1 {text}\n" for text in LABELS),
    "csv A1 3\n30 m3,60 m3\n4,8\n5,9\n",
    "csv A1 5\nyear,sum\n2024,5\n2025,6\n2026,7\ntotal,18\n",
    "csv A1 4\nname,price\na,5\nb,none\nc,none\n",
    "csv A1 3\nPrices\nname,price\na,5\n",
    'csv A1 3\n"a ""b"" c",1\n"two\nlines",2\n',
    'csv A1 2\n5" pipe,1\n"6" pipe,2\n',
    "set B1 =[.A1]+[.A2]\nset D1 3\nset D2 0\nset E1 2\ntable B1 A1 D1:D2\ntable B1 A1 D1:D2 A2 E1\n",
    "set A1 3\nset B1 =IFERROR(NA();0)\nscenario s A1 2\nuse s\nuse\nset A1 4\n",
)


def found_in(script: bytes) -> list[Finding]:
    with tempfile.TemporaryDirectory() as folder:
        path = Path(folder) / "script.whatif"
        path.write_bytes(script)
        return Check.of(path).findings()


class Mistakes(unittest.TestCase):
    def check(self, mistakes: tuple[Mistake, ...]) -> None:
        for mistake in mistakes:
            with self.subTest(mistake.script):
                findings = found_in(mistake.script.encode(mistake.encoding))
                fitting = [found for found in findings if found.kind is mistake.kind and (found.line, found.column) == mistake.place]
                self.assertEqual(len(fitting), 1, findings)
                self.assertIn(mistake.says, fitting[0].message)

    def test_formulas(self) -> None:
        self.check(FORMULAS)

    def test_lines(self) -> None:
        self.check(LINES)

    def test_contents(self) -> None:
        self.check(CONTENTS)

    def test_data(self) -> None:
        self.check(DATA)

    def test_what_is_searched(self) -> None:
        lines = TROUBLE.read_text().splitlines()
        for word, cure in SEARCHED:
            with self.subTest(word):
                self.assertTrue([line for line in lines if word in line and cure in line])

    def test_codes(self) -> None:
        """Every refusal has a hint, but for the lines and the formulas that have their own."""
        self.assertEqual(set(program_help().meanings) - set(BY_CODE), {"E02", "E05"})

    def test_commands(self) -> None:
        """The commands that the hints know are those of the program's help, and each is told its form."""
        forms = program_help().forms
        self.assertEqual(set(WORDS.split("|")), set(forms))
        self.assertEqual(forms["table"], ["table F R XCOLUMN", "table F R XCOLUMN C YROW"])
        for word in set(forms) - {"changes", "use"}:
            (found,) = found_in(f"{word}\n".encode())
            self.assertIn(f"its form is {forms[word][0]}", found.message)

    def test_functions(self) -> None:
        """What is looked for in docs/FROM.md is there, and English names are those of functions."""
        rows = page_of(ROOT / "docs" / "FROM.md").tables["Functions that aren't there"]
        named = {name for there, *_ in rows for code in codes(there) for name in re.findall(r"\b[A-Z]{2,}(?=\(|$)", code)}
        self.assertEqual(named - FUNCTIONS, set(IN_FROM))
        self.assertLessEqual(set(ENGLISH.values()), FUNCTIONS)
        self.assertFalse(set(ENGLISH) & (FUNCTIONS | IN_FROM))

    def test_examples(self) -> None:
        """What is found in the examples is what they are about."""
        examples = sorted((ROOT / "examples").glob("*.whatif"))
        self.assertTrue(examples)
        for path in examples:
            for found in Check.of(path).findings():
                with self.subTest(f"{path.name}:{found.line}"):
                    self.assertTrue(found.kind in (Kind.ERROR_STARTS, Kind.ERROR_IN_REPLY) or found.message.startswith(MEANT), found.message)

    def test_good_scripts(self) -> None:
        for script in GOOD:
            with self.subTest(script):
                self.assertEqual(found_in(script.encode()), [])
