"""Sweeps in which something ends too early: the program, a worker, the tool itself. Nothing is lost, and nothing is half."""

import os
import signal
import subprocess
import time
import unittest
from pathlib import Path

from tests.sweep.sweeping import SweepTest, text_of
from tests.support.program import PROGRAM

SETS = text_of(["name,B1", *(f"n{it},{it}" for it in range(1, 201))])
WANTED = text_of(["name,B4", *(f"n{it},{it * 32 / 100:.2f}".rstrip("0").rstrip(".") for it in range(1, 201))])


def children_of(pid: int) -> list[int]:
    """The processes that a process has begun and that run."""
    found = []
    for stat in Path("/proc").glob("[0-9]*/stat"):
        try:
            fields = stat.read_text().rpartition(")")[2].split()
        except OSError:
            continue
        if int(fields[1]) == pid and fields[0] != "Z":
            found.append(int(stat.parent.name))
    return found


class ProgramTest(SweepTest):
    def test_a_program_killed_once(self) -> None:
        ran = self.swept(SETS, "--chunk", "50", program=self.dying("force set B1 77", 1))
        self.assertEqual((ran.returncode, ran.stdout), (0, WANTED))

    def test_a_set_that_kills_the_program_each_time(self) -> None:
        ran = self.swept(SETS, "--chunk", "50", "--jobs", "2", program=self.dying("force set B1 77"))
        self.assertEqual((ran.returncode, ran.stdout), (1, WANTED.replace("n77,24.64\n", "")))
        self.assertEqual(self.failures(), ["78,n77,the program ends at this set: killed by signal 9"])

    def test_a_program_that_somebody_stops_is_no_fault_of_a_set(self) -> None:
        ran = self.swept(SETS, "--chunk", "50", program=self.dying("force set B1 77", by=15))
        self.assertEqual((ran.returncode, ran.stdout), (3, ""))
        self.assertIn("the program was stopped: killed by signal 15", ran.stderr)

    def test_a_program_that_ends_at_each_set(self) -> None:
        dying = self.script("dying", f"#!/bin/sh\n[ -p /dev/stdin ] && exec {PROGRAM}\nif grep -q '^show B4'; then exit 7; fi\n"
                            f"exec {PROGRAM} < /dev/fd/0\n")
        ran = self.swept(SETS, "--chunk", "50", program=dying)
        self.assertEqual((ran.returncode, ran.stdout), (3, ""))
        self.assertIn("no chunk succeeds: the program ended before the first set: exit status 7", ran.stderr)

    def test_a_program_that_is_gone_when_the_sweep_goes_on(self) -> None:
        program = self.script("program", f"#!/bin/sh\nexec {PROGRAM}\n")
        self.swept(SETS, "--resume", "work", "--plan", program=program)
        program.unlink()
        ran = self.run_tool("--resume", "work", "--jobs", "2", program=program)
        self.assertEqual((ran.returncode, ran.stdout), (3, ""))
        self.assertIn("no chunk succeeds", ran.stderr)
        ran = self.run_tool("--resume", "work", "--jobs", "2", program=PROGRAM)
        self.assertIn("is another program than that of the sweep", ran.stderr)


class StoppedTest(SweepTest):
    """The tool runs 200 sets in 20 chunks, each of which takes a while, and is stopped after a few."""

    def begun(self, seconds: float = 0.4) -> "subprocess.Popen[bytes]":
        """The tool, running, with some chunks done."""
        (self.folder / "sets.csv").write_text(SETS)
        line = self.words(self.model, "--out", "B4", "--sets", "sets.csv", "--jobs", "2", "--resume", "work", "-o", "results.csv")
        environment = self.environment(self.slow(seconds))
        running = subprocess.Popen(line, cwd=self.folder, env=environment, stdin=subprocess.DEVNULL, stderr=subprocess.PIPE, start_new_session=True)
        assert running.stderr
        self.addCleanup(running.stderr.close)
        end = time.monotonic() + 60
        while time.monotonic() < end:
            if (self.folder / "work" / "done").exists() and len(self.done_files()) >= 2:
                return running
            time.sleep(0.05)
        self.fail("no chunk was done in a minute")

    def ended(self, running: "subprocess.Popen[bytes]") -> tuple[int, str]:
        _, said = running.communicate(timeout=60)
        return running.returncode, said.decode()

    def goes_on(self) -> None:
        """What was done is kept, what lacks is done, and the results are right."""
        self.assertFalse((self.folder / "results.csv").exists())
        self.quicken()
        before = self.done_files()
        self.assertTrue(2 <= len(before) < 20, len(before))
        ran = self.run_tool("--resume", "work", "--jobs", "2", "-o", "results.csv", program=self.folder / "slow")
        self.assertEqual(ran.returncode, 0, ran.stderr)
        self.assertIn(f"{len(before)} of 20 chunks are done", ran.stderr)
        after = self.done_files()
        self.assertEqual({name: after[name] for name in before}, before)
        self.assertEqual((self.folder / "results.csv").read_text(), WANTED)
        self.assertEqual([it.name for it in (self.folder / "work" / "done").iterdir() if it.name.startswith(".")], [])

    def test_ctrl_c(self) -> None:
        running = self.begun()
        os.killpg(running.pid, signal.SIGINT)
        status, said = self.ended(running)
        self.assertEqual(status, 130)
        self.assertIn("chunks are being finished; Ctrl-C again ends them", said)
        self.assertIn("stopped. what is done is kept: whatif-sweep --resume work", said)
        self.assertNotIn("Traceback", said)
        self.goes_on()

    def test_ctrl_c_twice(self) -> None:
        running = self.begun()
        workers = children_of(running.pid)
        os.killpg(running.pid, signal.SIGINT)
        time.sleep(0.1)
        os.killpg(running.pid, signal.SIGINT)
        status, said = self.ended(running)
        self.assertEqual(status, 130, said)
        self.assertNotIn("Traceback", said)
        self.assertEqual([pid for pid in workers if Path(f"/proc/{pid}").exists()], [])
        self.goes_on()

    def test_sigterm(self) -> None:
        running = self.begun()
        running.terminate()
        status, said = self.ended(running)
        self.assertEqual(status, 143)
        self.assertIn("stopped. what is done is kept", said)
        self.goes_on()

    def test_sigkill(self) -> None:
        running = self.begun()
        workers = children_of(running.pid)
        running.kill()
        self.assertEqual(self.ended(running)[0], -signal.SIGKILL)
        end = time.monotonic() + 10
        while time.monotonic() < end and any(Path(f"/proc/{pid}").exists() for pid in workers):
            time.sleep(0.05)
        self.assertEqual([pid for pid in workers if Path(f"/proc/{pid}").exists()], [])
        self.goes_on()

    def test_workers_are_killed(self) -> None:
        running = self.begun(0.2)
        for _ in range(3):
            workers = children_of(running.pid)
            if workers:
                os.kill(workers[-1], signal.SIGKILL)
            time.sleep(0.7)
        status, said = self.ended(running)
        self.assertEqual(status, 0, said)
        self.assertEqual((self.folder / "results.csv").read_text(), WANTED)

    def test_the_program_is_stopped_beside_the_tool(self) -> None:
        running = self.begun(0.2)
        programs: list[int] = []
        while not programs:
            programs = [it for worker in children_of(running.pid) for it in children_of(worker)]
        os.kill(programs[0], signal.SIGTERM)
        self.assertEqual(self.ended(running)[0], 0)
        self.assertEqual((self.folder / "results.csv").read_text(), WANTED)


class DamagedTest(SweepTest):
    def setUp(self) -> None:
        super().setUp()
        self.swept(SETS, "--resume", "work")
        self.files = sorted((self.folder / "work" / "done").iterdir())

    def again(self) -> "subprocess.CompletedProcess[str]":
        return self.run_tool("--resume", "work", "--jobs", "2")

    def test_whole(self) -> None:
        before = self.done_files()
        self.assertEqual(self.again().stdout, WANTED)
        self.assertEqual(self.done_files(), before)

    def test_files_that_are_gone_cut_changed_or_anothers(self) -> None:
        before = self.done_files()
        contents = [it.read_bytes() for it in self.files]
        self.files[0].unlink()
        self.files[1].write_bytes(contents[1][:-5])
        self.files[2].write_bytes(contents[2].replace(b",", b";", 9))
        self.files[3].write_bytes(contents[4])
        self.files[5].write_bytes(b"")
        self.files[6].write_bytes(contents[6][:-3] + bytes([contents[6][-3] ^ 1]) + contents[6][-2:])
        ran = self.again()
        self.assertEqual((ran.returncode, ran.stdout), (0, WANTED))
        redone = [int(it) for it, came in self.done_files().items() if before[it] != came]
        self.assertEqual(sorted(redone), [0, 1, 2, 3, 5, 6])
        self.assertEqual([it.read_bytes().split(b"\n", 2)[2] for it in self.files], [it.split(b"\n", 2)[2] for it in contents])

    def test_sets_that_were_changed_in_the_folder(self) -> None:
        sets = self.folder / "work" / "sets.csv"
        sets.write_text(sets.read_text().replace("n7,7\n", "n7,9\n"))
        ran = self.again()
        self.assertEqual((ran.returncode, ran.stdout), (3, ""))
        self.assertIn("the sets in work were changed", ran.stderr)


class PartsTest(SweepTest):
    def test_parts_and_then_the_results(self) -> None:
        self.assertEqual(self.swept(SETS, "--resume", "work", "--plan").returncode, 0)
        for part in (0, 2):
            ran = self.run_tool("--resume", "work", "--part", f"{part}/3", "--jobs", "1")
            self.assertEqual((ran.returncode, ran.stdout), (0, ""))
        before = self.done_files()
        self.assertEqual({int(it) % 3 for it in before}, {0, 2})
        ran = self.run_tool("--resume", "work", "--jobs", "2")
        self.assertEqual((ran.returncode, ran.stdout), (0, WANTED))
        after = self.done_files()
        self.assertEqual({name: after[name] for name in before}, before)

    def test_two_at_once_in_one_folder(self) -> None:
        self.swept(SETS, "--resume", "work", "--plan")
        words = self.words("--resume", "work", "--jobs", "2", "-o", "results.csv")
        running = [subprocess.Popen(words, cwd=self.folder, env=self.environment(), stderr=subprocess.DEVNULL) for _ in range(2)]
        self.assertEqual([it.wait(timeout=60) for it in running], [0, 0])
        self.assertEqual((self.folder / "results.csv").read_text(), WANTED)


if __name__ == "__main__":
    unittest.main()
