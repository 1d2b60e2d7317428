"""The examples of docs/TROUBLE.md and docs/FROM.md, run on the program."""

import os
import subprocess
import tempfile
import textwrap
import unittest
from fractions import Fraction
from pathlib import Path

from pages import Block, Page, codes, page_of
from report_page import blocks
from whatif_tools.check import Check
from whatif_tools.errors import ASK
from whatif_tools.finding import Kind
from whatif_tools.program import ROOT, Reply, parted, program, program_help, run
from whatif_tools.shell import Shell

TROUBLE = page_of(ROOT / "docs" / "TROUBLE.md")
FROM = page_of(ROOT / "docs" / "FROM.md")
CELL = "Z99"
FORMULA_CELLS = "set A1 2\nset A2 3\nset B1 4\nset B2 5\n"
"""What is in the sheet when the formulas of TROUBLE are tried."""


def without_ok(written: bytes) -> str:
    """What a script wrote, but the lines `ok`."""
    return "".join(reply.text().removesuffix("ok\n") for reply in parted(written))


def written_by(script: str) -> bytes:
    return subprocess.run([program()], input=script.encode(), capture_output=True).stdout


def last(script: str) -> Reply:
    return run(script.encode()).replies[-1]


def shown(before: str, content: str) -> tuple[str, str]:
    """The kind and the text that a content has in a cell of its own."""
    script = before + f"set {CELL} {content}\n" + ASK.decode()
    return next(((kind, text) for address, kind, text in last(script).records() if address == CELL), ("-", ""))


class Blocks(unittest.TestCase):
    def test_scripts(self) -> None:
        for name, page in (("TROUBLE", TROUBLE), ("FROM", FROM)):
            blocks = [block for block in page.blocks if block.language == "whatif"]
            self.assertGreater(len(blocks), 4)
            for block in blocks:
                with self.subTest(f"{name}.md:{block.line}"):
                    assert block.behind is not None
                    self.assertEqual(without_ok(written_by(block.text)), block.behind.text)

    def test_shell(self) -> None:
        blocks = [block for block in FROM.blocks if block.language == "sh"]
        self.assertTrue(blocks)
        for block in blocks:
            with self.subTest(f"FROM.md:{block.line}"):
                assert block.behind is not None
                self.assertEqual(self.in_shell(block), block.behind.text)

    def in_shell(self, block: Block) -> str:
        """What the commands of a block write in a folder in which the page's files are, `ok` left out."""
        with tempfile.TemporaryDirectory() as folder:
            Path(folder, "whatif").symlink_to(Path(program()).resolve())
            Path(folder, "orders.csv").write_text(orders(FROM))
            path = folder + os.pathsep + os.environ["PATH"]
            done = subprocess.run(["bash", "-euc", block.text], cwd=folder, env={**os.environ, "PATH": path}, capture_output=True, text=True)
            self.assertEqual(done.stderr, "")
            return "".join(line + "\n" for line in done.stdout.splitlines() if line != "ok")


def orders(page: Page) -> str:
    """The data lines of the page's first script."""
    return "".join(page.blocks[0].text.splitlines(keepends=True)[1:7])


SAMPLE = """set A2 0.0425
set A3 4
set B3 =[.A3]*2,5
set A4 5
set A5 6
set A6 7
set B7 12%
set B2 0.0425
set B9 =PMT([.B2]/12;60;20000)
"""
"""The script whose findings are shown at the top of TROUBLE."""


class Trouble(unittest.TestCase):
    def test_findings(self) -> None:
        with tempfile.TemporaryDirectory() as folder:
            Path(folder, "budget.whatif").write_text(SAMPLE)
            words = [str(ROOT / "tools" / "whatif-check"), "budget.whatif"]
            environment = {**os.environ, "WHATIF": str(Path(program()).resolve())}
            done = subprocess.run(words, cwd=folder, env=environment, capture_output=True, text=True)
        page = (ROOT / "docs" / "TROUBLE.md").read_text()
        self.assertTrue("".join(f"    {line}\n" for line in done.stdout.splitlines()) in page, done.stdout)
        self.assertEqual(done.returncode, 1)

    def rows(self, section: str) -> list[list[str]]:
        rows = TROUBLE.tables[section]
        self.assertGreater(len(rows), 2)
        return rows

    def test_formulas(self) -> None:
        for wrong, _, right in self.rows("refused E05: a formula"):
            for formula in codes(wrong):
                self.assertEqual(last(f"set {CELL} {formula}").end, "refused E05", formula)
            for formula in codes(right):
                self.assertEqual(last(f"set {CELL} {formula}").end, "ok", formula)

    def test_lines(self) -> None:
        for wrong, _, right in self.rows("refused E02: a line"):
            for line in codes(wrong):
                self.assertEqual(last(line + "\n").end, "refused E02", line)
            for line in codes(right):
                if line != "csvout":
                    self.assertEqual(last(f"scenario wet B1 5\n{line}\n").end, "ok", line)

    def test_names_of_scenarios(self) -> None:
        self.assertEqual([last(f"scenario winter B1 5\nuse {name}\n").end for name in ("Winter", "winter")], ["refused E10", "ok"])

    def test_data(self) -> None:
        """What the rows of CSV say of a quote, a decimal comma and texts among numbers."""
        for data, sheet in (
            ('plum,4.50\n"fig,2\npear,3', [["plum", "4.5", ""], ["fig,2\npear,3\n", "", ""]]),
            ('"2"" pipe",4.50', [['2" pipe', "4.5", ""]]),
            ("plum,4,50", [["plum", "4", "50"]]),
            ('plum,4.50\n"plum, ripe",4.50', [["plum", "4.5", ""], ["plum, ripe", "4.5", ""]]),
        ):
            count = data.count("\n") + 1
            self.assertEqual(last(f"csv A1 {count}\n{data}\nshow A1:C{len(sheet)}\n").records(), sheet)
        texts = "csv A1 4\n5\nn/a\n30 m3\n\"\"\n"
        self.assertEqual(last(f"{texts}set B1 =SUM([.A1:.A4])\nshow B1\n").records(), [["5"]])

    def test_digits_of_products(self) -> None:
        """Any 38 digits fit, and of 39 some don't; TROUBLE and MANUAL say the same."""
        for factors, fits in (
            (("9.999999999999999999",) * 2, True),
            (("99999999999.12345678",) * 2, True),
            (("9999999999999999999",) * 2, True),
            (("0.9999999999999999999",) * 2, True),
            (("99999999999.123456789",) * 2, False),
            (("3.0000000000000000001",) * 2, False),
        ):
            product = Fraction(factors[0]) * Fraction(factors[1])
            places = sum(len(factor.partition(".")[2]) for factor in factors)
            before = len(str(int(product))) if product >= 1 else 0
            self.assertEqual(before + places <= 38, fits)
            self.assertEqual(shown("", f"={'*'.join(factors)}")[0], "N" if fits else "E", factors)
        rule = "at most 38 digits, those before the point and the places together"
        for page in ("TROUBLE", "MANUAL"):
            self.assertIn(rule, " ".join((ROOT / "docs" / f"{page}.md").read_text().split()))

    def test_texts(self) -> None:
        for wrong, _, right in self.rows("ok, but a text"):
            for line in codes(wrong):
                self.assertEqual(shown("", line.removeprefix("set A1 "))[0], "T", line)
            for line in codes(right):
                self.assertIn(shown("", line.removeprefix("set A1 "))[0], ("N", "L"), line)

    def test_errors(self) -> None:
        for error, wrong, _, right in self.rows("Errors in cells"):
            for formula in codes(wrong):
                self.assertEqual(shown(FORMULA_CELLS, formula), ("E", error.strip("`")), formula)
            for formula in codes(right):
                self.assertNotEqual(shown(FORMULA_CELLS, formula)[0], "E", formula)

    def test_fractions(self) -> None:
        for text, wrong, _, right in self.rows("A fraction where you want a decimal"):
            self.assertEqual(shown("", codes(wrong)[0]), ("N", text.strip("`")))
            self.assertNotIn("/", shown("", codes(right)[0])[1])


class From(unittest.TestCase):
    def test_formulas(self) -> None:
        """Each row of a table that says what its formula shows, on the sheet of the page's first script."""
        sheet = FROM.blocks[0].text
        rows = [row for section in FROM.tables.values() for row in section if len(row) == 3 and row[2]]
        self.assertGreater(len(rows), 25)
        for _, here, text in rows:
            (formula,) = codes(here)
            self.assertEqual(shown(sheet, formula)[1], codes(text)[0], formula)


class Start(unittest.TestCase):
    """docs/START.md, followed to the letter in an empty folder."""

    def setUp(self) -> None:
        self.folder = tempfile.TemporaryDirectory()
        self.place = Path(self.folder.name)
        (self.place / "bin").mkdir()
        (self.place / "bin" / "whatif").symlink_to(Path(program()).resolve())
        page = (ROOT / "docs" / "START.md").read_text()
        self.blocks = page_of(ROOT / "docs" / "START.md").blocks
        self.lines = [line.strip() for line in page.splitlines() if line.startswith("    ")]

    def tearDown(self) -> None:
        self.folder.cleanup()

    def script(self, first: str) -> tuple[str, str]:
        """The script whose first line is given, and the replies that the page has below it."""
        at = next(at for at, block in enumerate(self.blocks) if block.text.startswith(first + "\n"))
        return self.blocks[at].text, self.blocks[at + 1].text

    def shell(self, begins: str, at: int = 0) -> str:
        """What the page's shell line writes that begins so, the first or a later one."""
        function = next(line for line in self.lines if line.startswith("csvin()"))
        line = [line for line in self.lines if line.startswith(begins)][at]
        path = os.pathsep.join([str(self.place / "bin"), str(ROOT / "tools"), os.environ["PATH"]])
        environment = {**os.environ, "PATH": path, "WHATIF": str(Path(program()).resolve())}
        done = subprocess.run(["bash", "-c", f"{function}\n{line}"], cwd=self.place, env=environment, capture_output=True, text=True)
        self.assertEqual(done.stderr, "")
        return done.stdout.replace("\r\n", "\n")

    def write(self, name: str, text: str) -> None:
        (self.place / name).write_text(text)

    def test_to_the_letter(self) -> None:
        stall, shown = self.script("# stall.whatif: a day at the market")
        self.write("stall.whatif", stall)
        self.assertEqual(self.shell("whatif < stall.whatif"), shown)
        lines = stall.splitlines(keepends=True)
        self.write("stall.csv", "".join(lines[2:6]))
        self.write("stall.whatif", "".join(lines[:1] + lines[6:-1]))
        data_apart = self.shell("(csvin A1 stall.csv; cat stall.whatif; echo")
        self.assertEqual(data_apart, shown)
        questions = [self.script(first) for first in ("set D10 0.1", "csv G1 5", "scenario fair B6 120", "scenario rain B2 10")]
        self.write("questions.whatif", "".join(script for script, _ in questions))
        answers = self.shell("(csvin A1 stall.csv; cat stall.whatif questions.whatif)")
        self.assertTrue(answers.endswith("".join(replies for _, replies in questions)), answers)
        self.assertEqual(self.shell("(csvin A1 stall.csv; cat stall.whatif questions.whatif) >") + self.shell("whatif-report plan.whatif"), "")
        page = blocks((self.place / "plan.html").read_text(encoding="utf-8"))
        table, moving = page[3].tables()
        # A page's lines end with LF, records with CR LF.
        records = parted(questions[1][1].replace('"\n', '"\r\n').encode())[1].records()[1:]
        self.assertEqual([row[1:] for row in table[2:]], [record[1:] for record in records])
        self.assertEqual([cell.get("title") for cell in page[3].node.iter("td") if "here" in cell.get("class", "")], ["195"])
        self.assertEqual(moving[1], ["plum \u00b7 price D2 4.5", "177", "213"])

    def test_the_shell(self) -> None:
        """What the shell answers to what is typed into it."""
        page = (ROOT / "docs" / "START.md").read_text()
        typed = next(part for part in page.split("\n\n") if part.startswith("    main> "))
        first, *parts = (part.partition("\n") for part in f"\n{textwrap.dedent(typed)}\n".split("\nmain> "))
        self.assertEqual(("".join(first), len(parts)), ("", 3))
        shell = Shell(program(), program_help())
        self.addCleanup(lambda: shell.close(shell.book))
        for command, _, answer in parts:
            shell.take(command)
            self.assertEqual(shell.told().rstrip("\n"), answer.rstrip("\n"), command)

    def test_mistakes_are_found(self) -> None:
        """Both mistakes that are made on purpose."""
        script, _ = self.script("set B9 =B8*2")
        self.write("mistakes.whatif", script)
        found = Check.of(self.place / "mistakes.whatif").findings()
        self.assertIn((1, Kind.REFUSED), [(one.line, one.kind) for one in found])
        self.assertIn((3, Kind.TEXT_FOR_NUMBER), [(one.line, one.kind) for one in found])

    def test_the_path(self) -> None:
        """The folders of the page's line for the path have the program and its tools."""
        line = next(line for line in self.lines if line.startswith("export PATH=$PATH:"))
        folders = [ROOT / folder.partition("/path/to/whatif")[2].lstrip("/") for folder in line.split(":")[1:]]
        for command in ("whatif", "whatif-check", "whatif-report", "whatif-import", "whatif-shell", "ods2whatif"):
            self.assertTrue(any(os.access(folder / command, os.X_OK) and (folder / command).is_file() for folder in folders), command)
