"""Tests of `bench/count` and `bench/watch`, which make bench/crates.csv and a line of bench/runs.csv, over a small made repository."""

import csv
import os
import shutil
import subprocess
import time
import unittest
from pathlib import Path
from typing import Any

from tests import ROOT
from tests.support.loading import loaded
from tests.support.scratch import ScratchTest, write_files

BENCH = ROOT / "bench"
watch = loaded(BENCH / "watch")
CODE = "fn one() {}\n\nfn two() {}\n"
HEAD = "crate,code,specs,proofs,wrong bodies,seconds,gigabytes\n"
TABLE = f"{HEAD}low,9,9,9,9,7,1.5\n"


def repository(root: Path) -> None:
    """Two crates: `low` with 3 lines of code in 2 files, 2 of definitions, 1 of proofs and 2 wrong bodies; `high` with 3 lines of code."""
    files = {
        "crates.txt": "# the crates\nlow: std\nhigh status=1: low\n",
        "crates/low/src/lib.rt": "mod part;\n", "crates/low/src/part/one.rt": "one\ntwo\n", "crates/low/src/notes.md": "no code\n",
        "crates/low/specs/Lib.antt": "a\nb\n", "crates/low/proofs/one/Answers.antt": "c\n", "crates/low/out/old.rt": "no code\n",
        "crates/low/must-fail/a.edit": "", "crates/low/must-fail/b.edit": "", "crates/low/must-fail/README.md": "",
        "crates/high/src/main.rt": CODE, "bench/crates.csv": TABLE,
    }
    write_files(root, files)


def count(root: Path, *words: str) -> subprocess.CompletedProcess[str]:
    return subprocess.run([BENCH / "count", "--root", root, *words], capture_output=True, text=True, check=False)


class CountsTest(ScratchTest):
    """A test on a small repository."""

    def setUp(self) -> None:
        super().setUp()
        self.root = self.folder.resolve()
        repository(self.root)


class Count(CountsTest):
    def test_counts_are_written_and_measures_stay(self) -> None:
        self.assertEqual(count(self.root).returncode, 0)
        self.assertEqual((self.root / "bench/crates.csv").read_text(), f"{HEAD}low,3,2,1,2,7,1.5\nhigh,3,0,0,0,,\nall,6,2,1,2,,\n")

    def test_measures_come_from_a_file(self) -> None:
        (self.root / "measured").write_text("high,61.4,2350000000\nlow,127.0,1200000000\n")
        self.assertEqual(count(self.root, "--measured", str(self.root / "measured")).returncode, 0)
        self.assertEqual((self.root / "bench/crates.csv").read_text().splitlines()[1:3], ["low,3,2,1,2,127,1.2", "high,3,0,0,0,61,2.4"])

    def test_check_names_rows_of_yesterday_and_writes_nothing(self) -> None:
        stale = count(self.root, "--check")
        self.assertEqual(stale.returncode, 1)
        self.assertEqual(stale.stdout.splitlines()[0], "low,3,2,1,2,7,1.5")
        self.assertEqual((self.root / "bench/crates.csv").read_text(), TABLE)
        count(self.root)
        self.assertEqual(count(self.root, "--check").returncode, 0)


class Watch(CountsTest):
    def seen(self, processes: list[subprocess.Popen[bytes]]) -> dict[tuple[str, str], Any]:
        """What is seen of these processes, which end then."""
        costs: dict[tuple[str, str], Any] = {}
        try:
            time.sleep(0.2)
            watch.look(os.getpid(), self.root / "crates", costs)
        finally:
            for it in processes:
                it.kill()
                it.communicate()
        return costs

    def test_sees_provers_in_crates_alone(self) -> None:
        prover = self.root / "rattle"
        shutil.copy("/usr/bin/sleep", prover)
        places = [self.root / "crates" / "low", self.root / "crates" / "low", self.root]
        processes = [subprocess.Popen([prover, "20"], cwd=it) for it in places]
        costs = self.seen(processes)
        self.assertEqual(list(costs), [("low", "")])
        self.assertEqual(sorted(costs["low", ""].seconds), sorted(it.pid for it in processes[:2]))
        self.assertTrue(0 < costs["low", ""].memory < 50_000_000, costs)

    def test_sees_no_provers_of_another_gate(self) -> None:
        """Only those that a process has started, or that these have: another clone may prove beside it."""
        prover, low = self.root / "rattle", self.root / "crates" / "low"
        shutil.copy("/usr/bin/sleep", prover)
        costs: dict[tuple[str, str], Any] = {}
        gate = subprocess.Popen(["bash", "-c", f"bash -c '{prover} 20; true' & wait"], cwd=low)
        other = subprocess.Popen([prover, "20"], cwd=low)
        try:
            time.sleep(0.5)
            below = watch.processes_below(gate.pid)
            watch.look(gate.pid, self.root / "crates", costs)
            self.assertEqual(sorted((it / "comm").read_text().strip() for it in below), ["bash", "rattle"])
            self.assertEqual([Path(f"/proc/{it}") for it in costs["low", ""].seconds], [it for it in below if it != below[0]])
        finally:
            for it in [*map(lambda it: int(it.name), watch.processes_below(gate.pid)), gate.pid, other.pid]:
                os.kill(it, 9)
            gate.wait()
            other.wait()

    def test_tells_wrong_bodies_apart(self) -> None:
        prover, room = self.root / "rattle", self.root / "rt-edit-1-x"
        shutil.copy("/bin/bash", prover)
        room.mkdir()
        begins = [str(prover), "-c", "read _", "check", "--crate-name", "low"]
        tries: list[list[str]] = [["--incremental", "/kept/seed"], ["--incremental", "/kept/1"], []]
        processes = [subprocess.Popen([*begins, *it], cwd=room, stdin=subprocess.PIPE) for it in tries]
        costs = self.seen(processes)
        self.assertEqual(sorted(costs), [("low", "b"), ("low", "from nothing"), ("low", "seed")])

    def test_tells_the_speed_and_the_status(self) -> None:
        shutil.copy(BENCH / "watch", self.root / "bench")
        ran = subprocess.run([self.root / "bench/watch", self.root / "seen", "bash", "-c", "sleep 1; exit 3"])
        self.assertEqual(ran.returncode, 3)
        minute, seconds, taken = (self.root / "seen.speed").read_text().split(",")
        self.assertEqual((minute, 0.1 < float(seconds) < 100, 0 <= float(taken) <= 1), ("0", True, True))
        self.assertEqual([(self.root / it).read_text() for it in ("seen", "seen.edits")], ["", ""])

    def line_of_runs(self) -> dict[str, str]:
        """The last line of the list of runs."""
        with (self.root / "bench/runs.csv").open(newline="") as runs:
            return list(csv.DictReader(runs))[-1]

    def test_adds_a_line_for_each_run(self) -> None:
        """Outside a repository there is no commit. The first run writes the head, a second one adds a line alone."""
        shutil.copy(BENCH / "watch", self.root / "bench")
        for status in ("3", "0"):
            before = time.strftime("%Y-%m-%d", time.gmtime())
            subprocess.run([self.root / "bench/watch", self.root / "seen", "bash", "-c", f"sleep 1; exit {status}"])
            line = self.line_of_runs()
            self.assertIn(line.pop("date"), (before, time.strftime("%Y-%m-%d", time.gmtime())))
            self.assertEqual((0.1 < float(line.pop("loop")) < 100, 0 <= float(line.pop("minutes")) < 2), (True, True))
            self.assertEqual(line, {"commit": "", "bodies": "2", "tried": "0", "status": status, "command": f"bash -c 'sleep 1; exit {status}'"})
        self.assertEqual((self.root / "bench/runs.csv").read_text().count("\n"), 3)

    def test_tells_the_commit_and_the_wrong_bodies_tried(self) -> None:
        """A stub tries the second of two wrong bodies until it was looked at."""
        shutil.copy("/bin/bash", self.root / "rattle")
        (self.root / "rt-edit-1-x").mkdir()
        git = ["git", "-C", str(self.root), "-c", "user.name=a", "-c", "user.email=a@example.org"]
        for words in (["init", "-q"], ["add", "crates", "bench"], ["commit", "-qm", "one"]):
            subprocess.run([*git, *words], check=True)
        head = subprocess.run([*git, "rev-parse", "HEAD"], capture_output=True, text=True, check=True).stdout[:8]
        watched: Any = loaded(BENCH / "watch")
        watched.ROOT, watched.CRATES, watched.RUNS, look = self.root, self.root / "crates", self.root / "bench/runs.csv", watched.look

        def look_and_tell(gate: int, crates: Path, costs: dict[tuple[str, str], object]) -> None:
            look(gate, crates, costs)
            if ("low", "b") in costs:
                (self.root / "looked").touch()

        watched.look = look_and_tell
        wait = f"for i in {{1..600}}; do [ -e {self.root}/looked ] && break; sleep 0.1; done; true"
        tries = f"cd {self.root}/rt-edit-1-x && ../rattle -c '{wait}' check --crate-name low --incremental /kept/1; true"
        watched.main(str(self.root / "seen"), "bash", "-c", tries)
        self.assertEqual([self.line_of_runs()[it] for it in ("commit", "bodies", "tried")], [head, "2", "1"])
        watched.main(str(self.root / "seen"), "true")
        self.assertEqual(self.line_of_runs()["commit"], head)
        (self.root / "crates/low/specs/Lib.antt").write_text("another\n")
        watched.main(str(self.root / "seen"), "true")
        self.assertEqual(self.line_of_runs()["commit"], f"{head}+")


if __name__ == "__main__":
    unittest.main()
