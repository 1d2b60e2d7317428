"""Tests of bench/pages, which counts the bytes, long lines and long sentences of the pages, over a small made repository; and of bench/history.csv."""

import csv
import subprocess
import tempfile
import unittest
from datetime import date
from decimal import Decimal
from pathlib import Path

BENCH = Path(__file__).resolve().parent.parent / "bench"
PAGES = BENCH / "pages"
ABOVE = "above its aim"


def words(count: int) -> str:
    """So many words in one sentence, on lines of ten."""
    lines = [" ".join(["w"] * min(10, count - first)) for first in range(0, count, 10)]
    return "\n".join(lines) + "."


class PagesOfDocs(unittest.TestCase):
    def setUp(self) -> None:
        scratch = tempfile.TemporaryDirectory()
        self.addCleanup(scratch.cleanup)
        self.root = Path(scratch.name)
        (self.root / "docs").mkdir()

    def page(self, name: str, text: str) -> None:
        (self.root / name).parent.mkdir(exist_ok=True)
        (self.root / name).write_text(text)

    def told(self, *options: str) -> tuple[int, list[str]]:
        ran = subprocess.run([PAGES, "--root", self.root, *options], capture_output=True, text=True, check=False)
        self.assertEqual(ran.stderr, "")
        return ran.returncode, ran.stdout.splitlines()

    def where(self, page: str) -> list[str]:
        """What is told of this text as docs/MANUAL.md, without the page's name."""
        self.page("docs/MANUAL.md", page)
        status, lines = self.told("--where")
        self.assertEqual(status, 0)
        return [it.removeprefix("docs/MANUAL.md:") for it in lines[:[it.startswith("Page ") for it in lines].index(True)]]

    def test_a_page_above_its_aim_fails(self) -> None:
        for size, status in ((22_000, 0), (22_001, 1)):
            self.page("docs/MAP.md", "x\n" * (size // 2) + "x" * (size % 2))
            ended, lines = self.told()
            self.assertEqual(ended, status)
            self.assertEqual([it.split()[0] for it in lines if it.endswith(ABOVE)], ["docs/MAP.md"] * status)
            self.assertIn(f"{size:,} of 22,000", lines[1])

    def test_bytes_are_counted_and_not_letters(self) -> None:
        self.page("docs/GATE.md", "é\n" * 2_000)
        self.assertEqual(self.told()[0], 0)
        self.page("docs/GATE.md", "é\n" * 2_001)
        self.assertEqual(self.told()[0], 1)

    def test_three_pages_have_one_aim_together(self) -> None:
        for name in ("DEFINITIONS", "PROVED", "TESTED"):
            self.page(f"docs/{name}.md", "x\n" * 7_500)
        self.assertEqual(self.told()[0], 0)
        self.page("docs/TESTED.md", "x\n" * 7_500 + "x")
        status, lines = self.told()
        self.assertEqual((status, [it.split("  ")[0] for it in lines if it.endswith(ABOVE)]), (1, ["DEFINITIONS + PROVED + TESTED"]))

    def test_a_page_for_users_has_no_aim(self) -> None:
        self.page("README.md", "x\n" * 50_000)
        self.page("docs/MANUAL.md", "x\n" * 50_000)
        status, lines = self.told()
        self.assertEqual((status, [it.split()[:2] for it in lines[1:]]),
                         (0, [["README.md", "100,000"], ["docs/MANUAL.md", "100,000"], ["DEFINITIONS", "+"], ["all", "200,000"]]))

    def test_lines_above_160_columns_are_told(self) -> None:
        self.assertEqual(self.where(f"{'é' * 160}\n\n{'é' * 161}\n"), ["3: above 160 columns"])

    def test_sentences_above_40_words_are_told(self) -> None:
        self.assertEqual(self.where(f"# A page\n\n{words(40)} {words(40)}\n"), [])
        (told,) = self.where(f"# A page\n\n{words(40)} {words(41)}\n")
        self.assertTrue(told.startswith("3: 41 words: w w"), told)

    def test_an_item_and_a_cell_are_read_by_themselves(self) -> None:
        part = " ".join(["w"] * 39)
        self.assertEqual(self.where(f"{part}\n- {part}\n  w\n- {part}\n\n| {part} | `a | b` |\n|---|---|\n# {part}\n{part}\n"), [])
        self.assertEqual([it[:12] for it in self.where(f"- {part}\n  w w\n")], ["1: 41 words:"])

    def test_code_counts_by_its_words_and_ends_no_sentence(self) -> None:
        part = " ".join(["w"] * 38)
        self.assertEqual(self.where(f"{part} `a. B`\n"), [])
        self.assertEqual([it[:12] for it in self.where(f"{part} `a. B c`\n")], ["1: 41 words:"])

    def test_a_block_of_code_is_not_read(self) -> None:
        (told,) = self.where(f"A block.\n\n```\n{words(50)}\n```\n\n    {' '.join(['w'] * 41)}\n\n{words(41)}\n")
        self.assertTrue(told.startswith("13: 41 words:"), told)

    def test_the_pages_of_this_repository_are_counted(self) -> None:
        ran = subprocess.run([PAGES], capture_output=True, text=True, check=False)
        self.assertEqual(ran.stderr, "")
        self.assertIn("docs/PROVING.md", [it.split()[0] for it in ran.stdout.splitlines()])


class History(unittest.TestCase):
    def test_each_row_is_a_dated_figure(self) -> None:
        with (BENCH / "history.csv").open(newline="") as lines:
            head, *rows = csv.reader(lines)
        self.assertEqual(head, ["date", "commit", "what", "figure", "unit"])
        for row in rows:
            with self.subTest(row=row):
                day, commit, what, figure, unit = row
                self.assertEqual(date.fromisoformat(day).isoformat(), day)
                self.assertRegex(commit, r"^[0-9a-f]{8,40}$")
                self.assertTrue(what and unit)
                self.assertGreaterEqual(Decimal(figure), 0)
        days = [row[0] for row in rows]
        self.assertEqual(days, sorted(days))
        self.assertEqual(len({tuple(row) for row in rows}), len(rows))


if __name__ == "__main__":
    unittest.main()
