"""The grammar for VS Code and others, the problem matcher, and the files for Vim."""

import json
import os
import re
import shutil
import subprocess
import tempfile
import unittest
from pathlib import Path
from typing import Any

from textmate import Grammar
from whatif_tools.line_hints import WORDS
from whatif_tools.program import ROOT, program

EDITORS = ROOT / "editors"
CODE = EDITORS / "vscode"
KEYWORD, CELL, NUMBER, OPERATOR = "keyword.control", "variable.other.cell", "constant.numeric", "keyword.operator"

LINES: tuple[tuple[str, list[tuple[str, str]]], ...] = (
    ("# set A1 5", [("comment.line.number-sign", "# set A1 5")]),
    ("set A1 5", [(KEYWORD, "set"), (CELL, "A1"), (NUMBER, "5")]),
    ("set A1 -2.5", [(KEYWORD, "set"), (CELL, "A1"), (NUMBER, "-2.5")]),
    ("set A1 12,5", [(KEYWORD, "set"), (CELL, "A1")]),
    ("set A1 2 ", [(KEYWORD, "set"), (CELL, "A1")]),
    ("set xfd10 TRUE", [(KEYWORD, "set"), (CELL, "xfd10"), ("constant.language", "TRUE")]),
    ("set A1 '007", [(KEYWORD, "set"), (CELL, "A1"), ("string.unquoted", "'007")]),
    ("set A1 words and 5", [(KEYWORD, "set"), (CELL, "A1")]),
    (
        'force set A1 =SUM([.A1:.$B$2];"a ""b""")>=1e3',
        [
            (KEYWORD, "force set"),
            (CELL, "A1"),
            (f"{OPERATOR}.assignment", "="),
            ("support.function", "SUM"),
            (CELL, "[.A1:.$B$2]"),
            (OPERATOR, ";"),
            ("string.quoted.double", '"a ""b"""'),
            (OPERATOR, ">="),
            (NUMBER, "1e3"),
        ],
    ),
    ("scenario dear B2 1/3", [(KEYWORD, "scenario"), ("entity.name.type", "dear"), (CELL, "B2"), (NUMBER, "1/3")]),
    ("csv A1 12", [(KEYWORD, "csv"), (CELL, "A1"), (NUMBER, "12")]),
    ("table B5 B1 D2:D9 B2 E1:G1", [(KEYWORD, "table"), (CELL, "B5"), (CELL, "B1"), (CELL, "D2:D9"), (CELL, "B2"), (CELL, "E1:G1")]),
    ("changes", [(KEYWORD, "changes")]),
    ("Set A1 5", []),
    ("settle A1", []),
)

GROUPS = (
    ("# set A1 5", 1, "whatifComment"),
    ("set A1 5", 1, "whatifCommand"),
    ("set A1 5", 5, "whatifAddress"),
    ("set A1 5", 8, "whatifNumber"),
    ("set A1 12,5", 8, ""),
    ("set A1 TRUE", 8, "whatifTruth"),
    ("set A1 '5", 8, "whatifText"),
    ("set A1 =SUM([.A1];2)", 9, "whatifFunction"),
    ("set A1 =SUM([.A1];2)", 14, "whatifReference"),
    ("set A1 =SUM([.A1];2)", 18, "whatifOperator"),
    ("set A1 =SUM([.A1];2)", 19, "whatifFigure"),
    ('set A1 ="a"', 9, "whatifString"),
    ("show A1:B2", 6, "whatifAddress"),
    ("Set A1 5", 1, ""),
)
"""A line, a column from 1, and the syntax group that Vim has there."""


def loaded(path: str) -> Any:
    return json.loads((CODE / path).read_text())


def has_vim() -> bool:
    """Whether there is a Vim that colours and jumps."""
    vim = shutil.which("vim")
    said = subprocess.run([vim, "--version"], capture_output=True, text=True).stdout if vim else ""
    return all(part in said for part in ("+syntax", "+quickfix", "+eval"))


class Code(unittest.TestCase):
    def test_files(self) -> None:
        """The extension names files that are there."""
        parts = loaded("package.json")["contributes"]
        self.assertIn(".whatif", parts["languages"][0]["extensions"])
        for path in (parts["languages"][0]["configuration"], parts["grammars"][0]["path"]):
            self.assertTrue(loaded(path))
        self.assertEqual(parts["grammars"][0]["scopeName"], loaded(parts["grammars"][0]["path"])["scopeName"])
        self.assertEqual(loaded("example/tasks.json")["tasks"][0]["problemMatcher"], "$" + parts["problemMatchers"][0]["name"])

    def test_lines(self) -> None:
        grammar = Grammar(loaded("syntaxes/whatif.tmLanguage.json"))
        for line, scopes in LINES:
            with self.subTest(line):
                self.assertEqual(grammar.scopes(line), scopes)

    def test_all_commands(self) -> None:
        grammar = Grammar(loaded("syntaxes/whatif.tmLanguage.json"))
        for word in WORDS.split("|"):
            expected = [] if word == "force" else [(KEYWORD, word)]
            self.assertEqual(grammar.scopes(word), expected)

    def test_problem_matcher(self) -> None:
        pattern = loaded("package.json")["contributes"]["problemMatchers"][0]["pattern"]
        with tempfile.TemporaryDirectory() as folder:
            script = Path(folder) / "a b.whatif"
            script.write_text("set A1 1\nset A2 =2,5\n")
            lines = checked(script)
            found = re.match(pattern["regexp"], lines[0])
            assert found is not None
            places = [found[pattern[part]] for part in ("file", "line", "column")]
            self.assertEqual(places, [str(script), "2", "10"])
            self.assertTrue(found[pattern["message"]].startswith("refused E05"))
            self.assertFalse([line for line in lines[1:] if re.match(pattern["regexp"], line)])


def checked(script: Path) -> list[str]:
    words = [str(ROOT / "tools" / "whatif-check"), str(script)]
    return subprocess.run(words, capture_output=True, text=True).stdout.splitlines()


@unittest.skipUnless(has_vim(), "Vim with +syntax isn't installed")
class Vim(unittest.TestCase):
    def vim(self, folder: str, commands: list[str]) -> list[str]:
        """What commands write to the file `out`, in a Vim that has the files and no others of the user."""
        words = ["vim", "-es", "-N", "-i", "NONE", "-u", "NONE", "--cmd", f"set runtimepath^={EDITORS}/vim", "-c", "filetype plugin on", "-c", "syntax on"]
        ends = [word for command in (*commands, "qall!") for word in ("-c", command)]
        path = f"{ROOT}/tools{os.pathsep}{os.environ['PATH']}"
        environment = {**os.environ, "PATH": path, "TERM": "dumb", "WHATIF": str(Path(program()).resolve())}
        subprocess.run([*words, *ends], cwd=folder, env=environment, stdin=subprocess.DEVNULL, capture_output=True, timeout=20)
        return Path(folder, "out").read_text().splitlines()

    def test_groups(self) -> None:
        with tempfile.TemporaryDirectory() as folder:
            Path(folder, "s.whatif").write_text("".join(line + "\n" for line, _, _ in GROUPS))
            ask = "map([{}], 'synIDattr(synID(v:val[0], v:val[1], 1), \"name\")')"
            places = ",".join(f"[{at},{column}]" for at, (_, column, _) in enumerate(GROUPS, 1))
            found = self.vim(folder, ["edit s.whatif", f"call writefile({ask.format(places)}, 'out')"])
            self.assertEqual(found, [group for _, _, group in GROUPS])

    def test_make(self) -> None:
        """The cursor is on the first finding after :make, also behind letters of several bytes."""
        with tempfile.TemporaryDirectory() as folder:
            Path(folder, "a b.whatif").write_text('set A1 1\nset A2 ="ü"&2,5\nset A3 12%\n')
            ask = "map(getqflist(), 'bufname(v:val.bufnr) . \":\" . v:val.lnum . \": \" . v:val.text[:9]')"
            here = "[getline('.')[col('.') - 1 :]]"
            found = self.vim(folder, ["edit a\\ b.whatif", "silent make!", "cfirst", f"call writefile({ask} + {here}, 'out')"])
            self.assertEqual(found, ["a b.whatif:2: refused E0", "a b.whatif:3: a text, no", ",5"])
