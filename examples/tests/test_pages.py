"""The examples of the manual and of the page of functions are what the program writes."""

import os
import re
import subprocess
import sys
import tempfile
import unittest
from pathlib import Path

from examples.tests.pages import Script, said_lines, scripts_of
from tests import ROOT
from tests.support.pages import blocks_of
from tests.support.program import PROGRAM, written

MANUAL = (ROOT / "docs" / "MANUAL.md").read_text()
FUNCTIONS = (ROOT / "docs" / "FUNCTIONS.md").read_text()
SHEET = "set A1 1\nset A2 2\nset A3 3\nset B1 10\nset B2 20\nset B3 30\nset C1 b\nset C2 7\n"


def in_folder(words: list[str]) -> subprocess.CompletedProcess[str]:
    """Runs words in a folder that has the program as ./whatif, and the files that the pages name."""
    with tempfile.TemporaryDirectory() as folder:
        os.symlink(Path(PROGRAM).resolve(), Path(folder, "whatif"))
        Path(folder, "prices.csv").write_text('item,price,pieces,cost\n"bolt, M6",0.12,400,48')
        Path(folder, "script").write_text("set A1 1\nexport A1\nexport A1:B1\n=\n")
        Path(folder, "model.whatif").write_text("set A1 1\n")
        Path(folder, "questions.whatif").write_text("show A1\n")
        return subprocess.run(words, cwd=folder, capture_output=True, text=True, timeout=60)


class PagesTest(unittest.TestCase):
    def test_scripts(self) -> None:
        for script in scripts_of(MANUAL):
            with self.subTest(script.heading):
                before = written(script.before.encode())
                whole = written((script.before + script.text).encode())
                self.assertTrue(whole.startswith(before))
                self.check(whole[len(before) :].decode().replace("\r\n", "\n"), script)

    def check(self, replies: str, script: Script) -> None:
        """Compares what a script writes with what a page says of it."""
        if script.oks is not None:
            self.assertEqual(replies, "ok\n" * script.oks + "".join(script.replies))
        for end in script.replies:
            self.assertTrue(replies.endswith(end), f"{end}\nisn't the end of\n{replies}")
        for line in script.lines:
            self.assertIn(line, replies.splitlines())

    def test_the_manual_has_examples(self) -> None:
        scripts = scripts_of(MANUAL)
        self.assertGreaterEqual(len(scripts), 7)
        for script in scripts:
            self.assertTrue(script.replies or script.lines, script.heading)

    def test_functions(self) -> None:
        rows = re.findall(r"^\| `.*\| `(=.*)` \| `(.*)` \|$", FUNCTIONS, re.MULTILINE)
        self.assertEqual(len(rows), 51)
        for formula, result in rows:
            with self.subTest(formula):
                replies = written(f"{SHEET}set Y1 {formula}\nshow Y1\n".encode()).decode()
                self.assertEqual(replies.split("\n", 9)[9], f'"{result}"\r\nok\n')

    def test_formulas_and_results_in_prose(self) -> None:
        found = re.findall(r"`(=[^`]+)`\s+is\s+`?(-?\d[\d./]*|TRUE|FALSE|#[A-Z/0]+!?)", MANUAL + FUNCTIONS)
        self.assertGreaterEqual(len(found), 8)
        for formula, result in found:
            with self.subTest(formula):
                replies = written(f"set Y1 {formula}\nshow Y1\n".encode()).decode()
                self.assertEqual(replies, f'ok\n"{result.rstrip(".")}"\r\nok\n')

    def test_shell_lines_of_the_manual(self) -> None:
        lines = [line.strip() for line in re.findall(r"^    (.*\./whatif.*)$", MANUAL, re.MULTILINE)]
        self.assertEqual(len(lines), 3)
        ran = [in_folder(["bash", "-c", line]) for line in lines]
        self.assertEqual([it.returncode for it in ran], [0, 0, 0])
        table = '"item","price","pieces","cost"\n"bolt, M6","0.12","400","48"\n"","","",""\n'
        self.assertEqual(ran[0].stdout, "ok\nlines 5\n" + table + '"","","",""\n' * 2 + "ok\n")
        self.assertEqual(ran[1].stdout, '"1"\n')
        self.assertEqual(ran[2].stdout, 'ok\n"1"\nok\n')

    def test_python_of_the_manual(self) -> None:
        (source,) = [block.text for block in blocks_of(MANUAL) if block.words == "python"]
        said = re.search(r"print\(.*\) +# (.*)\n", source)
        assert said
        ran = in_folder([sys.executable, "-c", source])
        self.assertEqual((ran.stdout, ran.returncode), (said[1] + "\n", 0))

    def test_contents_that_become_texts(self) -> None:
        """The contents that the manual calls texts are texts, and those that it calls others aren't."""
        row = re.search(r"^\| (`set A1 12,5`.*) \| \*\*texts\*\*", MANUAL, re.MULTILINE)
        driving = re.search(r"\*\*What isn't spelled as a number becomes a text, with `ok`\*\*:(.*?)and `5` with a", MANUAL, re.DOTALL)
        assert row and driving
        texts = [span.removeprefix("set A1 ") for span in re.findall(r"`([^`]*)`", row[1])]
        texts += [*re.findall(r"`([^`]*)`", driving[1]), "5 "]
        self.assertEqual(len(texts), 13)
        for text in texts:
            with self.subTest(text):
                replies = written(f"set A1 {text}\nset A2 =SUM([.A1])\nchanges\n".encode()).decode().split("\n", 2)[2]
                self.assertEqual(replies, f'"A1","T","{text}"\r\n"A2","N","0"\r\nok\n')

    def test_the_float_of_the_manual(self) -> None:
        replies = written(b"set A1 0.30000000000000004\nset A2 =[.A1]^2\nset A3 =[.A1]^3\nshow A2:A3\n").decode()
        self.assertRegex(replies, r'ok\nok\nok\n"\d[0-9/]*"\r\n"#NUM!"\r\nok\n')


class BlocksTest(unittest.TestCase):
    PAGE = 'Words.\n```whatif\nset A1 1\n```\nIt writes `"A1","N","1"` and `refused E18 B1`; `show A1` is no line.\n# Next\n`"x","y"`\n'

    def test_blocks(self) -> None:
        self.assertEqual([block.words for block in blocks_of(self.PAGE)], ["prose", "whatif", "prose", "prose"])

    def test_scripts(self) -> None:
        (script,) = scripts_of(self.PAGE)
        self.assertEqual((script.text, script.lines), ("set A1 1\n", ['"A1","N","1"', "refused E18 B1"]))

    def test_count_of_oks(self) -> None:
        (script,) = scripts_of("```whatif\nset A1 1\n```\nwrites `ok` for each of the first nine commands\n")
        self.assertEqual(script.oks, 9)

    def test_lines_in_prose(self) -> None:
        self.assertEqual(said_lines('`"a"` `"112"`, `refused E05` `=1`'), ['"112"', "refused E05"])


if __name__ == "__main__":
    unittest.main()
