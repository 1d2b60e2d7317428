"""Tests of bench/index: what it makes of a small made repository, what it refuses, and that docs/index.txt is of today."""

import unittest
from pathlib import Path

from tests import ROOT
from tests.support.loading import loaded, result_of
from tests.support.scratch import ScratchTest, write_files

MAP = """# Map

A walk: `low/part/grammar::line`, then `tell`, `crates/no` and `no/place`.

| Word | What it is |
|---|---|
| no | rule |

## Formulas

| Rule | Definition in `low` | Code in `low` |
|---|---|---|
| signs before `^` | Grammar.line_of | part/grammar::line |
| messages | none | high/main::tell |
"""
RULES = """# a comment
signs before ^
  a minus,
  unary
  also: low/Grammar.unary low/part/grammar::line2,line
  also: high/main
  case: signs
  case: tests/made
"""
FILES = {
    "docs/MAP.md": MAP, "bench/rules.txt": RULES, "tests/made/a.cases": "== signs\n", "crates/wi_low/specs/Grammar.antt": "line_of : ℕ\nunary = 1\n",
    "crates/wi_low/src/part/grammar.rt": "fn line() {}\nfn line2() {}\n", "crates/high/src/main.rt": "fn tell() {}\n",
}
WANTED = [
    "signs before ^: a minus, unary | crates/wi_low/specs/Grammar.antt: line_of, unary"
    " | crates/wi_low/src/part/grammar.rt: line, line2; crates/high/src/main.rt | signs; tests/made",
    "messages | no definition | crates/high/src/main.rt: tell",
]


TOOL = loaded(ROOT / "bench/index")


def index(root: Path, *words: str) -> tuple[int, str]:
    """Its status, and what it says."""
    return result_of(TOOL, "--root", str(root), *words)


class Index(ScratchTest):
    def setUp(self) -> None:
        super().setUp()
        self.root = self.folder.resolve()
        write_files(self.root, FILES)

    def change(self, name: str, old: str, new: str) -> None:
        text = (self.root / name).read_text()
        self.assertEqual(text.count(old), 1)
        (self.root / name).write_text(text.replace(old, new))

    def test_a_line_for_each_rule(self) -> None:
        self.assertEqual(index(self.root), (0, ""))
        lines = (self.root / "docs/index.txt").read_text().splitlines()
        self.assertEqual([it for it in lines if not it.startswith("#")], WANTED)

    def test_what_is_refused(self) -> None:
        for name, old, new, said in (
            ("docs/MAP.md", "Grammar.line_of", "Grammar.line", "Grammar.line: no line in crates/wi_low/specs/Grammar.antt"),
            ("docs/MAP.md", "| part/grammar", "| grammar", "grammar::line: no file crates/wi_low/src/grammar.rt"),
            ("docs/MAP.md", "`low/part/grammar::line`", "`low/part/grammar::gone`", "low/part/grammar::gone: no gone in crates/wi_low/src/part/grammar.rt"),
            ("docs/MAP.md", "signs before `^`", "signs", "no row: signs before ^"),
            ("docs/MAP.md", "messages", "signs before ^", "two rows: signs before ^"),
            ("docs/MAP.md", "| messages | none |", "| messages |", "no row of three cells: | messages | high/main::tell |"),
            ("bench/rules.txt", "Grammar.unary", "Gram.unary", "low/Gram.unary: no file crates/wi_low/specs/Gram.antt"),
            ("bench/rules.txt", "line2,line", "line3", "low/part/grammar::line3: no line3 in crates/wi_low/src/part/grammar.rt"),
            ("bench/rules.txt", "case: signs", "case: sign", "signs before ^: no case sign"),
        ):
            with self.subTest(new):
                self.change(name, old, new)
                for words in ((), ("--check",)):
                    self.assertEqual(index(self.root, *words), (1, f"{said}\n"))
                self.assertFalse((self.root / "docs/index.txt").exists())
                (self.root / name).write_text(FILES[name])

    def test_one_of_yesterday(self) -> None:
        index(self.root)
        self.assertEqual(index(self.root, "--check"), (0, ""))
        before = (self.root / "docs/index.txt").read_text()
        self.change("bench/rules.txt", "unary\n", "binary\n")
        self.assertEqual(index(self.root, "--check"), (1, "docs/index.txt isn't of today: bench/index writes it\n"))
        self.assertEqual((self.root / "docs/index.txt").read_text(), before)

    def test_that_of_this_repository_is_of_today(self) -> None:
        self.assertEqual(index(ROOT, "--check"), (0, ""))


if __name__ == "__main__":
    unittest.main()
