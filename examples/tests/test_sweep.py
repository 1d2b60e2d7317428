"""A chunk of sets by one process gives what a process for each set gives, and what Python's fractions give."""

import os
import re
import shutil
import subprocess
import tempfile
import unittest
from pathlib import Path

from tests.support.program import PROGRAM, written
from examples.tests.replies import EXAMPLES, commands_of
from tests.support.rounding import shown
from tests.support.solar import left
from whatif_tools.program import parted

SWEEP = EXAMPLES / "sweep"
CELLS = ("B1", "B3", "B4", "B6")


def run(name: str, *words: str, given: str = "") -> subprocess.CompletedProcess[str]:
    """Runs a script of the sweep."""
    environment = {**os.environ, "WHATIF": PROGRAM}
    words = (str(SWEEP / name), *words)
    return subprocess.run(words, input=given, capture_output=True, text=True, env=environment, timeout=60)


def by_a_process_of_its_own(line: str) -> str:
    """The result of one set of parameters."""
    name, *values = line.split(",")
    questions = "".join(f"set {cell} {value}\n" for cell, value in zip(CELLS, values))
    *_, last = parted(written((SWEEP / "model.whatif").read_bytes() + f"{questions}show B10\n".encode()))
    ((result,),) = last.records()
    return f"{name},{result}"


class SweepTest(unittest.TestCase):
    lines = run("sets", "100000").stdout.splitlines()
    some = lines[::4001]

    def test_sets_are_all_different(self) -> None:
        self.assertEqual(len(self.lines), 100_000)
        self.assertEqual(len({line.partition(",")[2] for line in self.lines}), 100_000)

    def test_model_has_no_questions(self) -> None:
        first_words = {command.split()[0] for command in commands_of((SWEEP / "model.whatif").read_text())}
        self.assertEqual(first_words, {"csv", "set", "fill"})

    def test_a_chunk_is_a_process_for_each_set(self) -> None:
        ran = run("chunk", given="\n".join(self.some) + "\n")
        self.assertEqual((ran.returncode, ran.stderr), (0, ""))
        self.assertEqual(ran.stdout.splitlines(), [by_a_process_of_its_own(line) for line in self.some])

    def test_results(self) -> None:
        ran = run("chunk", given="\n".join(self.some) + "\n")
        wanted = []
        for line in self.some:
            name, *values = line.split(",")
            wanted.append(f"{name},{shown(left(*values))}")
        self.assertEqual(ran.stdout.splitlines(), wanted)

    def test_a_set_that_is_refused_has_no_result(self) -> None:
        ran = run("chunk", given=f"{self.lines[0]}\nbad,5,0.3,,1200\n{self.lines[1]}\n")
        self.assertEqual((ran.returncode, ran.stderr), (1, "bad: refused E02\n"))
        good = run("chunk", given=f"{self.lines[0]}\n{self.lines[1]}\n")
        self.assertEqual((ran.stdout, good.returncode), (good.stdout, 0))

    def test_a_set_with_other_than_five_fields_has_no_result(self) -> None:
        ran = run("chunk", given=f"{self.lines[0]}\nmany,80,10.9,0.20,0.24,1743\nfew,5,0.3,0.2\n{self.lines[1]}\n")
        self.assertEqual((ran.returncode, ran.stderr), (1, "many: 6 fields, not 5\nfew: 4 fields, not 5\n"))
        self.assertEqual(ran.stdout, run("chunk", given=f"{self.lines[0]}\n{self.lines[1]}\n").stdout)

    def test_the_tool_gives_what_a_chunk_gives(self) -> None:
        """The commands of README.md, on fewer sets."""
        page = (SWEEP / "README.md").read_text()
        found = re.search(r"^    (\(echo .*> sets.csv)\n    (.*whatif-sweep .*> results.csv)$", page, re.MULTILINE)
        assert found
        made, swept = found.groups()
        with tempfile.TemporaryDirectory() as folder:
            script = f"set -e\n{made.replace('100000', '300').replace('./sets', str(SWEEP / 'sets'))}\n{swept}\n"
            script = script.replace("../../tools", str(EXAMPLES.parent / "tools")).replace("model.whatif", str(SWEEP / "model.whatif"))
            environment = {**os.environ, "WHATIF": PROGRAM}
            subprocess.run(["bash", "-c", script], cwd=folder, env=environment, capture_output=True, check=True, timeout=60)
            head, *results = Path(folder, "results.csv").read_text().splitlines()
        whole = run("chunk", given="\n".join(run("sets", "300").stdout.splitlines()) + "\n")
        self.assertEqual((head, results), ("name,B10", whole.stdout.splitlines()))
        self.assertEqual(len(results), 300)
        self.assertTrue(all(line in page for line in ["name,B10", *results[:2]]))

    @unittest.skipUnless(shutil.which("parallel"), "GNU parallel isn't installed")
    def test_chunks_by_gnu_parallel(self) -> None:
        """The command of README.md, on as many sets as make several chunks."""
        sets = self.lines[:400]
        command = re.search(r"^    parallel (--pipepart .*) > results.csv$", (SWEEP / "README.md").read_text(), re.MULTILINE)
        assert command
        with tempfile.TemporaryDirectory() as folder:
            Path(folder, "sets.csv").write_text("\n".join(sets) + "\n")
            Path(folder, "chunk").symlink_to(SWEEP / "chunk")
            words = ["parallel", "--will-cite", *command[1].split()]
            environment = {**os.environ, "WHATIF": PROGRAM, "HOME": folder}
            ran = subprocess.run(words, cwd=folder, capture_output=True, text=True, env=environment, timeout=60)
        whole = run("chunk", given="\n".join(sets) + "\n")
        self.assertEqual((ran.stdout, ran.returncode), (whole.stdout, 0))
        self.assertEqual(len(ran.stdout.splitlines()), 400)

    def test_a_program_that_ends_early_fails(self) -> None:
        environment = {**os.environ, "WHATIF": "false"}
        ran = subprocess.run([str(SWEEP / "chunk")], input="\n".join(self.lines), text=True, capture_output=True, env=environment)
        self.assertNotEqual(ran.returncode, 0)


if __name__ == "__main__":
    unittest.main()
