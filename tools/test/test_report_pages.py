"""The pages of whatif-report as a whole: what is found, texts that are markup, a model that is loaded, limits, bytes and statuses."""

from __future__ import annotations

import contextlib
import csv
import hashlib
import io
import os
import re
import resource
import shutil
import subprocess
import sys
import tempfile
import unittest
import unittest.mock
from fractions import Fraction
from pathlib import Path
from urllib.parse import unquote

from pages import codes, page_of
from report_page import blocks, words
from reports import STALL, TABLE, Reports
from whatif_tools.check import Check
from whatif_tools.program import ROOT, program
from whatif_tools.report.main import main
from whatif_tools.report.questions import SHOWING
from whatif_tools.script import commands, lines_of


class Findings(Reports):
    def test_everywhere(self) -> None:
        """What whatif-check finds stands at the top, at its command and in the listing, and makes the status."""
        script = "set A1 5\nset B1 =A1*2\nset C1 12,5\nset D1 =[.C1]*2\nshow D1\n"
        found = blocks(self.page(script))
        messages = [finding.message for finding in Check.of(self.place / "s.whatif").findings()]
        self.assertEqual((self.status, len(messages)), (1, 3))
        for message in messages:
            self.assertIn(" ".join(message.split()), found[0].text)
            self.assertIn(" ".join(message.split()), found[-1].text)
        self.assertEqual((found[0].head, found[1].kind, found[1].errors()), ("3 things need a look", "findings", messages[:1]))
        self.assertIn("3 things need a look", self.said)

    def test_nothing_found(self) -> None:
        found = blocks(self.page("set A1 5\nshow A1\n"))
        self.assertEqual((self.status, self.said, found[0].kind), (0, "", "good"))

    def test_what_cant_be_opened(self) -> None:
        status, said = self.called(str(self.place / "none.whatif"))
        self.assertEqual(status, 2)
        self.assertIn("none.whatif", said)
        (self.place / "s.whatif").write_text("set A1 1\n")
        self.assertEqual(self.called(str(self.place / "s.whatif"), "-o", str(self.place / "no" / "page.html"))[0], 2)
        self.assertEqual(self.called(str(self.place / "s.whatif"), "--load", str(self.place / "m.whatif"))[0], 2)

    def test_examples(self) -> None:
        """Each example makes its page, with the status of whatif-check, and without a fault of its own."""
        for path in sorted((ROOT / "examples").glob("*.whatif")):
            with self.subTest(path.name):
                out = self.place / "page.html"
                status, _ = self.called(str(path), "-o", str(out))
                self.assertEqual(status, 1 if Check.of(path).findings() else 0)
                asked = [command for command in commands(lines_of(path.read_bytes())) if command.name in SHOWING]
                found = blocks(out.read_text(encoding="utf-8"))
                abouts = {block.about.split(" ")[1] for block in found if block.about.startswith("line ")}
                self.assertLessEqual({str(command.line) for command in asked}, abouts)


class Pages(Reports):
    def test_same_bytes(self) -> None:
        script = STALL + TABLE + "table B4 B1 D2:D4 B2 E1:F1\nscenario rain B1 95\ncompare - rain B1:B4\n"
        page = self.page(script)
        self.assertEqual(page, self.page(script))
        for path in (self.place / "s.whatif", Path(program())):
            self.assertIn(f"SHA-256 {hashlib.sha256(path.read_bytes()).hexdigest()}", page)
        self.assertNotIn("2031", page)
        self.assertIn("30 May 2031", self.page(script, "--date", "30 May 2031"))

    def test_texts_that_are_html(self) -> None:
        """Cells, names, comments and mistakes that are markup are shown as texts."""
        nasty = "<script>alert('x')</script><b onclick=\"y\">&amp;"
        script = f"# {nasty}\nset A1 '{nasty}\nset B1 5\nset B2 =[.B1]*2\nset A2 '</td></table>{nasty}\n# so {nasty}\nshow A1:B2\n"
        script += f"csv D1 2\n1\n2\ntable B2 B1 D1:D2\nscenario s B1 {nasty}\ncompare - s A1:B2\n{nasty}\nset C1 ={nasty}\n"
        script += "as x\nchanges\nformula A1\n"
        page = self.page(script)
        found = blocks(page)
        self.assertEqual((page.count("<script"), page.count("onclick=\"y\"")), (1, 0))
        self.assertEqual(found[1].head, f"so {nasty}")
        self.assertIn(nasty, "".join(found[1].node.itertext()))

    def test_loaded_model(self) -> None:
        """Lines are those of the script, and what is wrong in the model is told as its own."""
        model = self.place / "model.whatif"
        model.write_text(STALL + "show A1:B4\nset C1 12%\nscenario rain B1 95\nas bo\nuse rain")
        page = self.page(TABLE + "table B4 B1 D2:D4\nset C2 7%\n", "--load", str(model))
        found = blocks(page)
        self.assertEqual([block.about for block in found[1:-1]][:1], ["line 6 table B4 B1 D2:D4 session bo scenario rain"])
        self.assertIn("line 7: a text, no number: '7%'", found[0].text)
        self.assertIn("line 9 of the model: a text, no number: '12%'", found[0].text)
        self.assertIn("The model model.whatif, 12 lines", found[-1].text)
        self.assertIn(hashlib.sha256(model.read_bytes()).hexdigest(), page)
        self.assertEqual(self.status, 1)

    def test_places(self) -> None:
        block = self.blocks("set A1 1\nset A2 =[.A1]/3\nset B1 1\nset B2 2\ntable A2 A1 B1:B2\n", "--places", "2")[0]
        cells = [(cell.text, cell.get("title")) for cell in block.node.iter("td")][:2]
        self.assertEqual(cells, [("0.33", "1/3"), ("0.67", "2/3")])

    def test_open(self) -> None:
        """The page is shown where that is asked for, and not else."""
        with unittest.mock.patch("webbrowser.open") as opened:
            self.page("set A1 1\nshow A1\n")
            opened.assert_not_called()
            self.page("set A1 1\nshow A1\n", "--open")
            opened.assert_called_once_with((self.place / "page.html").resolve().as_uri())

    def test_wrong_words(self) -> None:
        cases: list[list[str]] = [["--by", "0"], ["--by", "x"], ["--tornado", "B0"], ["--places", "-1"], []]
        for given in cases:
            with self.assertRaises(SystemExit) as ended, contextlib.redirect_stderr(io.StringIO()):
                main([*given, *(["s.whatif"] if given else [])])
            self.assertEqual(ended.exception.code, 2)


class Limits(Reports):
    def test_64_scenarios(self) -> None:
        """All are shown; no other one can be made, so what moves a result isn't told, and the page says so."""
        script = STALL + "".join(f"scenario s{n} B1 {n}\n" for n in range(1, 65)) + "compare - s1 B1:B4\n" + TABLE + "table B4 B1 D2:D4\n"
        page = self.page(script)
        found = blocks(page)[1:-1]
        self.assertIn("the script leaves no room for another scenario", page)
        self.assertEqual(len(found[-1].tables()[0]), 66)
        self.assertEqual(found[1].heads(), [])
        self.assertEqual(self.status, 0)

    def test_64_sessions(self) -> None:
        """There is no room to ask, and the page says so; the answers are drawn without names."""
        script = STALL + "".join(f"as s{n}\n" for n in range(63)) + TABLE + "table B4 B1 D2:D4\n"
        page = self.page(script)
        self.assertIn("The script has made 64 sessions", page)
        self.assertEqual(blocks(page)[1].captions(), ["B4 by B1"])

    def test_seven_results(self) -> None:
        """What moves each of six is drawn, and that it isn't of the seventh is said; seven tables of one result are drawn alike."""
        script = STALL + TABLE + "".join(f"set C{n} =[.B1]*{n}\n" for n in range(1, 8))
        page = self.page(script + "".join(f"table C{n} B1 D2:D4\n" for n in range(1, 8)))
        self.assertEqual([len(block.heads()) for block in blocks(page)[1:8]], [1] * 6 + [0])
        self.assertIn("told of the first 6 alone", page)
        page = self.page(script + "table C1 B1 D2:D4\n" * 7)
        self.assertEqual([len(block.heads()) for block in blocks(page)[1:8]], [1] + [0] * 6)
        self.assertNotIn("alone.", page)

    def test_large_sheet(self) -> None:
        """It is drawn in a time that grows as it does, and not with its square."""
        before = processor_seconds()
        page = self.page(STALL + "set F1 1\nfill F1 F2:F20001\n" + TABLE + "table B4 B1 D2:D4\nas bo\nchanges\nshow F1:F20000\n")
        self.assertLess(processor_seconds() - before, 20)
        self.assertLess(len(page), 500_000)
        self.assertIn("more than 20,000 cells, so what moves a result isn", page)
        self.assertEqual(blocks(page)[1].captions(), ["profit B4 by customers B1"])

    def test_findings_in_long_data(self) -> None:
        """The middle of long data is left out of the listing, but for lines in which something is found."""
        lines = [f"{n}" for n in range(1, 101)]
        lines[49] = "50 %"
        listing = blocks(self.page("csv A1 100\n" + "\n".join(lines) + "\nshow A1\n"))[-1]
        shown_lines = [node.get("id") for node in listing.node.iter("span") if node.get("id")]
        self.assertEqual(shown_lines, [f"L{n}" for n in [*range(1, 14), 51, *range(90, 103)]])

    def test_long_listing(self) -> None:
        """The lines behind 3,000 others are left out, but for questions and findings."""
        page = self.page("set A1 1\n" * 3000 + "set A2 2\n" * 4_000 + "show A1\nset A3 5 %\nset A4 4\n")
        listed = [node.get("id") for node in blocks(page)[-1].node.iter("span") if node.get("id")]
        self.assertEqual(listed, [f"L{n}" for n in [*range(1, 3001), 7_001, 7_002]])
        self.assertLess(len(page), 400_000)

    def test_nothing_to_draw(self) -> None:
        for script in ("", "# only a comment\n", "set A1 5", "csv A1 3\n1\n", "\ufeffset A1 1\n", "set A1 1\n" * 500):
            self.assertIn("</html>", self.page(script))

    def test_many_questions(self) -> None:
        found = self.blocks("set A1 5\n" + "show A1\n" * 450)
        self.assertEqual((len(found), found[-1].text), (401, "50 more questions aren't drawn."))

    def test_65536_entries(self) -> None:
        """256 by 256 entries take less than 5 seconds of the processor, and the page less than 5 MB."""
        head = "".join(f",{n}" for n in range(1, 257))
        script = f"set B1 3\nset B2 4\nset B3 =[.B1]*[.B2]/7-20\ncsv D1 257\n{head}\n"
        script += "".join(f"{n}\n" for n in range(1, 257)) + "table B3 B1 D2:D257 B2 E1:IZ1\n"
        seconds = []
        for _ in range(2):
            before = processor_seconds()
            page = self.page(script)
            seconds.append(processor_seconds() - before)
            if seconds[-1] < 5:
                break
        self.assertLess(min(seconds), 5)
        self.assertLess(len(page), 5_000_000)
        self.assertIn("256 \u00d7 256 exact numbers as CSV", page)

    def test_list_of_65536_rows(self) -> None:
        """It takes less than 5 seconds of the processor, or on a slow one what so many readings of as many fractions take there."""
        script = f"set B1 3\nset B3 =[.B1]*4/7-20\ncsv D1 {ROWS}\n" + "".join(f"{n}\n" for n in range(1, ROWS + 1)) + f"table B3 B1 D1:D{ROWS}\n"
        for _ in range(2):
            reading = reading_seconds()
            before = processor_seconds()
            page = self.page(script)
            seconds = processor_seconds() - before
            limit = max(5, MOST_READINGS * max(reading, reading_seconds()))
            if seconds < limit:
                break
        self.assertLess(seconds, limit)
        self.assertLess(len(page), 5_000_000)
        link = next(node for node in blocks(page)[1].node.iter("a") if node.get("download"))
        head, *rows = csv.reader(io.StringIO(unquote(link.get("href", "").partition(",")[2]), newline=""))
        self.assertEqual((words(link), head), ("65,536 exact numbers as CSV", ["B1", "B3"]))
        self.assertEqual([(x, Fraction(y)) for x, y in rows], [(str(n), Fraction(4 * n, 7) - 20) for n in range(1, ROWS + 1)])


ROWS = 65_536
MOST_READINGS = 20


def processor_seconds() -> float:
    usages = (resource.getrusage(who) for who in (resource.RUSAGE_SELF, resource.RUSAGE_CHILDREN))
    return sum(usage.ru_utime + usage.ru_stime for usage in usages)


def reading_seconds() -> float:
    """What reading so many fractions takes now: how fast this machine is, while others work beside."""
    texts = [f"{n}/7" for n in range(1, ROWS + 1)]
    before = processor_seconds()
    numbers = [Fraction(text) for text in texts]
    assert len(numbers) == ROWS
    return processor_seconds() - before


class Documented(unittest.TestCase):
    """What docs/REPORT.md says."""

    def test_python(self) -> None:
        """Its example runs beside a script like that of START, and makes the page."""
        source = next(block.text for block in page_of(ROOT / "docs" / "REPORT.md").blocks if block.language == "python")
        with tempfile.TemporaryDirectory() as folder:
            script = "set B7 0\nset B8 =195-[.B7]*454\ncsv G1 5\n,\n0\n0.05\n0.1\n0.2\n"
            Path(folder, "plan.whatif").write_text(script)
            environment = {**os.environ, "WHATIF": str(Path(program()).resolve()), "PYTHONPATH": str(ROOT / "clients" / "python")}
            subprocess.run([sys.executable, "-B", "-c", source], cwd=folder, env=environment, check=True)
            (block,) = blocks(Path(folder, "plan.html").read_text(encoding="utf-8"))
        self.assertEqual(block.tables()[0][1:], [["0.00", "195"], ["0.05", "172.3"], ["0.10", "149.6"], ["0.20", "104.2"]])

    def test_options(self) -> None:
        """Each option of the help stands on the page, and no other one."""
        done = subprocess.run([str(ROOT / "tools" / "whatif-report"), "--help"], capture_output=True, text=True, check=True)
        told = {code.split(" ")[0] for row in page_of(ROOT / "docs" / "REPORT.md").tables["Options"] for code in codes(row[0])}
        options = {option for line in done.stdout.splitlines() if line.startswith("  -") for option in re.findall("--[a-z]+", line)}
        self.assertEqual(options - {"--help", "--output"}, told - {"-o"})


class Command(Reports):
    def called_in_folder(self, tool: Path) -> None:
        """The page lies beside, named by the script."""
        (self.place / "plan.whatif").write_text("set A1 5\nshow A1\n")
        environment = {**os.environ, "WHATIF": str(Path(program()).resolve())}
        done = subprocess.run([str(tool), "plan.whatif"], cwd=self.place, env=environment, capture_output=True, text=True)
        self.assertEqual((done.returncode, done.stdout, done.stderr), (0, "", ""))
        self.assertIn("<title>plan</title>", (self.place / "plan.html").read_text())

    def test_in_the_repository(self) -> None:
        self.called_in_folder(ROOT / "tools" / "whatif-report")

    def test_installed(self) -> None:
        """The tool below share, called by a link in bin, and the client where Python packages are."""
        share, packages = self.place / "usr" / "share" / "whatif", self.place / "usr" / "lib" / "python3" / "dist-packages"
        leave = shutil.ignore_patterns("__pycache__")
        shutil.copytree(ROOT / "tools" / "whatif_tools", share / "whatif_tools", ignore=leave)
        shutil.copytree(ROOT / "clients" / "python" / "whatif", packages / "whatif", ignore=leave)
        shutil.copy(ROOT / "tools" / "whatif-report", share)
        (self.place / "usr" / "bin").mkdir()
        (self.place / "usr" / "bin" / "whatif-report").symlink_to("../share/whatif/whatif-report")
        self.called_in_folder(self.place / "usr" / "bin" / "whatif-report")


if __name__ == "__main__":
    unittest.main()
