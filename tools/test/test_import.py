"""Scripts from spreadsheets that LibreOffice and Gnumeric have written, and from small ones made here."""

import contextlib
import io
import shutil
import subprocess
import tempfile
import unittest
import unittest.mock
import zipfile
from fractions import Fraction
from pathlib import Path

from whatif_tools.audit import audit, near
from whatif_tools.carry import Carrier
from whatif_tools.constants import duration, exact, number, put, since
from whatif_tools.document import Document, Name, Sheet
from whatif_tools.errors import ASK
from whatif_tools.functions import FUNCTIONS
from whatif_tools.helpers import Helpers
from whatif_tools.import_command import main
from whatif_tools.move import Places
from whatif_tools.ods import read
from whatif_tools.pieces import CannotGoOver
from whatif_tools.program import ROOT, run
from whatif_tools.rewrite import RULES
from whatif_tools.sheet import Address
from whatif_tools.spreadsheet_file import NotASpreadsheet
from whatif_tools.translate import Translator, without_noise

SPREADSHEETS = Path(__file__).resolve().parent / "spreadsheets"

SHOWN = {
    "B1": "12.5",
    "B2": "0.19",
    "B4": "120",
    "B5": "6092.8",
    "B6": "4902.8",
    "C6": "5378.8",
    "B7": "0.35",
    "C7": "80",
    "D7": "3",
    "B8": "dear [.A1]",
    "C8": "TRUE",
    "B9": "25",
    "B10": "0.3",
    "C10": "0.3",
    "D10": "0.0000001",
    "E10": "0.027",
    "B11": "#DIV/0!",
    "C11": "#N/A",
    "B12": "1.63",
    "C12": "#NUM!",
    "B13": "518.811022844338",
    "B14": "46053",
    "C14": "46054",
    "D14": "25/48",
    "E14": "TRUE",
    "A15": 'two   spaces "quoted"',
    "B15": "two\nlines",
    "C15": "007",
    "D15": "=no formula",
    "B16": "66",
    "C16": "0",
    "D16": "34.1",
    "B17": "7",
    "D17": "7",
    "A19": "3",
    "B19": "3",
    "G3": "0.05",
    "H2": "40",
    "H3": "2.1",
    "K1": "2",
}
"""What model.fods shows in its cells, its second sheet from column G on and its third from J on."""

NOTES = {
    "Model.B13": "PMT isn't a function of whatif",
    "Model.B16": "an array formula",
    "Model.D16": "to several sheets",
}

DIFFERING = {
    "libreoffice.ods": {"C12"},
    "gnumeric.ods": {"B6", "C6", "C12"},
}
"""Gnumeric has no MULTIPLE.OPERATIONS, and saves #NAME? for it."""

CAUSES = {
    "tariff": {},
    "recipe": {
        "C2": "texts match only where every letter is the same, capitals too",
        "C4": "the case of texts, or a blank that meets the criterion",
        "D2": "it reads C2, which differs",
        "D4": "it reads D2, which differs",
        "B5": "a list that isn't sorted, or the case of texts",
        "D5": "it reads D4, which differs",
    },
    "loan": {
        "B15": "#NUM!: the exact number doesn't fit; round each step from B6 on: =ROUND([.B5]*(1+[.$B$1]/12)-370.59;12)",
        **{f"B{row}": f"it reads B{row - 1}, which differs" for row in range(16, 24)},
    },
    "break_even": {},
    "sink": {
        "D1": "the case of texts, or a blank that meets the criterion",
        "E2": "a text where a number is needed: texts are never numbers here",
        "D3": "the case of texts, or a blank that meets the criterion",
        "D4": "wildcards",
    },
    "settings": {
        "A1": "precision as shown",
        "B1": "it reads A1, which differs",
        "A2": "iteration: a circle",
        "A3": "iteration: a circle",
        "C3": "a match of whole cells",
    },
    "data": {},
    "cover": {},
    "tables": {},
}
"""The workbooks that make.py has made with LibreOffice: which formulas differ from its values, and why."""

FROZEN = {"loan": {"B4"}, "sink": {"D6", "E6", "A7", "A8", "A9"}}


def values(script: str) -> dict[str, str]:
    return {address: text for address, _, text in run(script.encode() + ASK).replies[-1].records()}


def carrier_of(path: Path) -> Carrier:
    document = read(path)
    return Carrier.of(document, document.sheets[0])


def spreadsheet(folder: str, table: str) -> Path:
    """A file with the given tables."""
    names = ("office", "table", "text")
    spaces = " ".join(f'xmlns:{name}="urn:oasis:names:tc:opendocument:xmlns:{name}:1.0"' for name in names)
    path = Path(folder) / "made.ods"
    with zipfile.ZipFile(path, "w") as archive:
        body = f"<office:body><office:spreadsheet>{table}</office:spreadsheet></office:body>"
        archive.writestr("content.xml", f"<office:document-content {spaces}>{body}</office:document-content>")
    return path


def called(*words: str) -> tuple[int, str, str]:
    """The exit status of whatif-import and what it writes."""
    written, told = io.StringIO(), io.StringIO()
    with contextlib.redirect_stdout(written), contextlib.redirect_stderr(told):
        status = main(list(words))
    return status, written.getvalue(), told.getvalue()


class Spreadsheets(unittest.TestCase):
    def test_values(self) -> None:
        for name in DIFFERING:
            shown = values(carrier_of(SPREADSHEETS / name).script())
            for address, text in SHOWN.items():
                with self.subTest(f"{name} {address}"):
                    self.assertEqual(shown.get(address), text)

    def test_notes(self) -> None:
        for name in DIFFERING:
            carrier = carrier_of(SPREADSHEETS / name)
            carrier.script()
            notes = {f"{note.sheet}.{note.address}": note.why for note in carrier.notes}
            self.assertEqual(set(notes), set(NOTES))
            for cell, why in NOTES.items():
                self.assertIn(why, notes[cell])

    def test_audit(self) -> None:
        for name, differing in DIFFERING.items():
            carrier = carrier_of(SPREADSHEETS / name)
            compared = audit(carrier)
            self.assertEqual({str(one.cell.address) for one in compared if not one.agrees}, differing)
            self.assertGreater(len(compared), 17)
            self.assertEqual({str(place) for place in carrier.frozen}, {"B13", "B16", "D16"})

    def test_workbooks(self) -> None:
        """What differs, and why, and no more; what is frozen."""
        for name, causes in CAUSES.items():
            with self.subTest(name):
                carrier = carrier_of(SPREADSHEETS / f"{name}.ods")
                found = {str(one.cell.address): one.cause for one in audit(carrier) if not one.agrees}
                self.assertEqual(found, causes)
                self.assertEqual({str(place) for place in carrier.frozen}, FROZEN.get(name, set()))
                self.assertEqual(carrier.left_empty, set())

    def test_rewrites(self) -> None:
        """All formulas that are said otherwise show what LibreOffice has."""
        carrier = carrier_of(SPREADSHEETS / "rewrites.ods")
        compared = audit(carrier)
        self.assertGreater(len(compared), 900)
        self.assertEqual([one.record() for one in compared if not one.agrees], [])
        self.assertEqual((carrier.frozen, carrier.left_empty), ({}, set()))
        self.assertGreater(len(carrier.rewritten), 870)

    def test_marks_in_the_script(self) -> None:
        script = carrier_of(SPREADSHEETS / "sink.ods").script()
        for line in (
            "# A7 is frozen at 800; it was =[.C1:.C3]*2 (an array formula)\nset A7 800\n",
            "# A8 is frozen at 300 (a part of the array formula of A7)\nset A8 300\n",
            "# D6 is frozen at 275; it was =MEDIAN([.C1:.C4]) (MEDIAN isn't a function of whatif)\nset D6 275\n",
            "# D5 was =ROWS([.A1:.A4])\nset D5 4\n".replace("set D5 4", "set D5 =4"),
            "# E5 was =DATE(2026;11;30)\nset E5 =46356\n",
        ):
            self.assertIn(line, script)

    def test_sheets_that_are_left_out(self) -> None:
        path = str(SPREADSHEETS / "cover.ods")
        status, written, told = called(path)
        line = "not taken: Plan, Rates (whatif-import FILE SHEET takes one and what it reads, --all takes all)\n"
        self.assertEqual((status, written), (0, f"# {line}# the sheet Cover\nset A1 'Plan of 2027\n"))
        self.assertEqual(told, line + "there are no formulas to audit\n")
        _, written, told = called("--all", path)
        self.assertIn("# the sheet Plan, from column C on\nset C1 5\nset D1 =[.C1]*[.F1]\n", written)
        self.assertEqual(told, "1 of 1 formulas agree with the saved values\n")
        self.assertIn("# not taken: Cover", called(path, "Plan")[1])

    def test_loans(self) -> None:
        """The payment by a column of rounded factors is LibreOffice's to the cent, and told as another model."""
        _, written, _ = called("--expand-loans", str(SPREADSHEETS / "loan.ods"))
        self.assertIn("# B4 was =-PMT([.B1]/12;[.B2];[.B3])\n", written)
        self.assertIn("rounded to 12 places: steps, no closed form\n", written)
        self.assertEqual(round(Fraction(values(written)["B4"]), 2), round(Fraction("370.591105097"), 2))
        document = read(SPREADSHEETS / "loans.ods")
        carrier = Carrier.of(document, document.sheets[0], expands_loans=True)
        compared = audit(carrier)
        self.assertEqual((len(compared), carrier.frozen), (14, {}))
        for one in compared:
            self.assertEqual(one.kind, "N", one.record())
            self.assertLess(abs(Fraction(one.shown) - Fraction(one.saved)), Fraction(1, 10**5), one.record())
            self.assertTrue(one.agrees or one.cause.startswith("a loan in rounded steps"), one.record())

    def test_excel(self) -> None:
        """Both data tables of a workbook of Excel's, by way of LibreOffice."""
        if shutil.which("soffice") is None:
            self.skipTest("soffice isn't installed: an Excel workbook wasn't converted")
        status, written, told = called(str(SPREADSHEETS / "tables.xlsx"))
        self.assertEqual((status, told), (0, "9 of 9 formulas agree with the saved values\n"))
        shown = values(written)
        self.assertEqual([shown[cell] for cell in ("E2", "F2", "E3", "F3", "E7", "E8")], ["92", "82", "140", "124", "88", "216"])

    def test_excel_without_the_converter(self) -> None:
        with unittest.mock.patch("shutil.which", return_value=None):
            status, _, told = called(str(SPREADSHEETS / "tables.xlsx"))
        self.assertEqual(status, 2)
        self.assertIn("soffice --headless --convert-to ods", told)

    def test_formulas_go_over_as_they_are(self) -> None:
        script = carrier_of(SPREADSHEETS / "libreoffice.ods").script()
        self.assertIn("set B6 =MULTIPLE.OPERATIONS([.$B$5];[.$B$1];[.$D1])\n", script)
        self.assertIn("set B7 =SUM([.G1:.G3])\n", script)
        self.assertIn("set H2 =[.G1]*[.B3]\n", script)
        self.assertIn("set B9 =[.$B$1]*2\n", script)

    def test_another_sheet(self) -> None:
        status, written, _ = called(str(SPREADSHEETS / "libreoffice.ods"), "Other")
        self.assertEqual(status, 0)
        self.assertTrue(written.startswith("# not taken: Model, Rates 2026 ("))
        self.assertTrue(written.endswith("# the sheet Other\nset A1 1\nset B1 2\n"))

    def test_command(self) -> None:
        path = str(SPREADSHEETS / "libreoffice.ods")
        status, written, told = called("--audit", path)
        self.assertEqual(status, 1)
        line = "18 of 19 formulas agree with the saved values; 1 differs: see --audit; 3 cells are frozen at what was saved"
        self.assertEqual(told.splitlines()[-1], line)
        self.assertTrue(written.startswith('"Model.C12","=1.05^40","#NUM!","7.03998871212466","#NUM!: the exact number'))
        self.assertEqual(written.count("\n"), 1)
        self.assertEqual(told.splitlines()[-3], "2 dates or times are numbers of days here, from B14 on")
        self.assertTrue(told.splitlines()[-2].startswith("Model.C12 shows #NUM!: the exact number doesn't fit; round what it reads"))
        self.assertEqual(len(told.splitlines()), len(NOTES) + 3)
        self.assertEqual(called("--check", path)[1], written)
        self.assertEqual(called(path, "Nowhere")[0], 2)
        self.assertEqual(called("nowhere.ods")[0], 2)

    def test_flat_file(self) -> None:
        """A file that no program has calculated: the same formulas, and no values to compare with."""
        status, written, told = called(str(SPREADSHEETS / "model.fods"))
        self.assertEqual(status, 1)
        self.assertIn("set B6 =MULTIPLE.OPERATIONS([.$B$5];[.$B$1];[.$D1])\n", written)
        self.assertIn("no saved value", told)

    def test_old_name(self) -> None:
        done = subprocess.run([str(ROOT / "tools" / "ods2whatif"), str(SPREADSHEETS / "data.ods")], capture_output=True, text=True)
        self.assertEqual(done.returncode, 0)
        self.assertTrue(done.stderr.startswith("ods2whatif is whatif-import now"))

    def test_without_the_program(self) -> None:
        path = str(SPREADSHEETS / "data.ods")
        with unittest.mock.patch.dict("os.environ", WHATIF="/nowhere/whatif"):
            status, written, told = called(path)
        self.assertEqual((status, written), (1, called(path)[1]))
        self.assertIn("not audited: /nowhere/whatif", told)


class Page(unittest.TestCase):
    def test_the_run_on_the_page(self) -> None:
        """docs/FROM.md shows the audit of recipe.ods as it is."""
        _, written, told = called("--audit", str(SPREADSHEETS / "recipe.ods"))
        page = (ROOT / "docs" / "FROM.md").read_text()
        self.assertIn("".join(f"    {line}\n" for line in written.splitlines()), page)
        self.assertIn(f"    {told}", page)

    def test_what_is_said_otherwise(self) -> None:
        """tools/README.md names each function that is."""
        page = (ROOT / "tools" / "README.md").read_text()
        table = page[page.index("| Said otherwise |") : page.index("The audit compares")]
        for name in RULES:
            self.assertRegex(table, rf"\b{name.rpartition('.')[2]}\b")


class Made(unittest.TestCase):
    def carry(self, table: str) -> Carrier:
        with tempfile.TemporaryDirectory() as folder:
            return carrier_of(spreadsheet(folder, table))

    def test_rows(self) -> None:
        """Rows in groups, repeated rows without cells, cells of an area that another covers, and comments."""
        cell = '<table:table-cell office:value-type="float" office:value="{}"/>'
        table = (
            '<table:table table:name="S"><table:table-header-rows><table:table-row>' + cell.format(1) + "</table:table-row></table:table-header-rows>"
            '<table:table-row table:number-rows-repeated="3"><table:table-cell/></table:table-row><table:table-row-group><table:table-row>'
            '<table:covered-table-cell/><table:table-cell office:value-type="string"><office:annotation><text:p>a comment</text:p></office:annotation>'
            "<text:p>a<text:tab/>b<text:line-break/>c</text:p></table:table-cell></table:table-row></table:table-row-group>"
            '<table:table-row table:number-rows-repeated="1048570"><table:table-cell table:number-columns-repeated="16384"/></table:table-row></table:table>'
        )
        self.assertEqual(self.carry(table).script(), '# the sheet S\nset A1 1\ncsv B5 2\n"a\tb\nc"\n')

    def test_too_many_cells(self) -> None:
        row = '<table:table-row table:number-rows-repeated="200001"><table:table-cell office:value-type="float" office:value="1"/></table:table-row>'
        with self.assertRaises(NotASpreadsheet):
            self.carry(f'<table:table table:name="S">{row}</table:table>')

    def test_other_kinds_of_formulas(self) -> None:
        cell = '<table:table-row><table:table-cell table:formula="{}" office:value-type="float" office:value="8"/></table:table-row>'
        formulas = ("oooc:=[.B1]", "of:=[.#REF!]", "of:=['file:///a.ods'#$S.A1]", "of:=[.B1]!", "of:={1;2}", "of:=[.1:.B3]")
        carrier = self.carry('<table:table table:name="S">' + "".join(map(cell.format, formulas)) + "</table:table>")
        lines = carrier.script().splitlines()
        self.assertEqual(lines[2::2], [f"set A{row} 8" for row in range(1, 7)])
        self.assertEqual(lines[5], "# A3 is frozen at 8; it was =['file:///a.ods'#$S.A1] (the reference ['file:///a.ods'#$S.A1])")
        self.assertTrue(all(line.startswith(f"# A{row} is frozen at 8; it was ") for row, line in enumerate(lines[1::2], 1)))
        self.assertEqual(len(carrier.notes), 6)

    def test_help_that_is_no_formula(self) -> None:
        """A formula whose column of help would be refused is frozen, and the help isn't made."""
        cell = '<table:table-cell table:formula="of:=SUMPRODUCT([.B1:.B3]1e5&gt;50)" office:value-type="float" office:value="8"/>'
        script = self.carry(f'<table:table table:name="S"><table:table-row>{cell}</table:table-row></table:table>').script()
        self.assertEqual(script.splitlines()[2:], ["set A1 8"])

    def test_whole_rows(self) -> None:
        cell = '<table:table-row><table:table-cell table:formula="of:=SUM([.2:.3])" office:value-type="float" office:value="0"/></table:table-row>'
        self.assertIn("set A1 =SUM([.$A2:.$A3])\n", self.carry(f'<table:table table:name="S">{cell}</table:table>').script())


class Parts(unittest.TestCase):
    def test_moved_references(self) -> None:
        first, second = Sheet("First"), Sheet("It's, 2")
        document = Document([first, second], {"RATE": Name("Rate", range="$First.$B$1")})
        places = Places(document, {"First": 0, "It's, 2": 26})

        def moved_to(text: str, sheet: Sheet) -> str:
            return Translator(places, sheet, Address(1, 1), Helpers(60), RULES, keeps_unknown=True).formula(text)

        for text, moved in (
            ("of:=[.A1]+['It''s, 2'.$B$2]", "=[.A1]+[.$AB$2]"),
            ("of:=SUM([$'It''s, 2'.A1:.Z3])", "=SUM([.AA1:.AZ3])"),
            ("of:=SUM([$'It''s, 2'.A1:$'It''s, 2'.A3])", "=SUM([.AA1:.AA3])"),
            ('of:="[.A1] rate"&rate', '="[.A1] rate"&[.$B$1]'),
            ("of:=RATE(1)+Rate*2", "=RATE(1)+[.$B$1]*2"),
            ("of:=SUM([.A:.B])", "=SUM([.A$1:.B$1048576])"),
        ):
            self.assertEqual(moved_to(text, first), moved)
        self.assertEqual(moved_to("of:=[.A1]*[First.A1]", second), "=[.AA1]*[.A1]")
        with self.assertRaises(CannotGoOver):
            moved_to("of:=[Third.A1]", first)

    def test_numbers(self) -> None:
        for saved, put_in in (
            ("0.0425000000000000000004", "0.0425"),
            ("0.30000000000000004", "0.3"),
            ("1e-07", "0.0000001"),
            ("-2.50", "-2.5"),
            ("1E+3", "1000"),
            ("9007199254740991", "9007199254740991"),
            ("123456789012345678", "123456789012346000"),
            ("0", "0"),
            ("0.333333333333333315", "0.333333333333333"),
        ):
            self.assertEqual(number(saved), put_in)
        for saved in ("1e39", "1e-39", "nan", "x"):
            with self.assertRaises(CannotGoOver):
                number(saved)

    def test_days(self) -> None:
        self.assertEqual(since("1899-12-30", "1900-01-01"), 2)
        self.assertEqual(since("1904-01-01", "1904-01-02T06:00:00"), Fraction(5, 4))
        self.assertEqual(duration("PT30H00M36S"), Fraction(30 * 3600 + 36, 86_400))
        self.assertEqual(duration("-P1DT12H"), Fraction(-3, 2))
        self.assertEqual(exact(Fraction(1, 3)), "1/3")

    def test_texts(self) -> None:
        self.assertEqual(put(Address(1, 2), "'a"), "set B1 'a\n")
        self.assertEqual(put(Address(1, 2), "'a \"b\"\nc"), 'csv B1 2\n"a ""b""\nc"\n')

    def test_noise_in_formulas(self) -> None:
        for text, plain in (("1.04999999999999999996", "1.05"), ("12345678901234567", "12345678901234567"), ("2.5", "2.5")):
            self.assertEqual(without_noise(text), plain)

    def test_near(self) -> None:
        self.assertTrue(near(Fraction("0.3"), Fraction("0.30000000000000004")))
        self.assertFalse(near(Fraction("0.3"), Fraction("0.300000000001")))
        self.assertFalse(near(Fraction(0), Fraction("1e-17")))

    def test_functions(self) -> None:
        """The list of functions is that of docs/FUNCTIONS.md."""
        lines = (ROOT / "docs" / "FUNCTIONS.md").read_text().splitlines()
        listed = {line[3:].partition("(")[0] for line in lines if line.startswith("| `")}
        self.assertEqual(FUNCTIONS - {"MULTIPLE.OPERATIONS"}, listed)
