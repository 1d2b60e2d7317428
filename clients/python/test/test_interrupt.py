"""Ctrl-C while the program answers: the workbook can be used on, and what it shows is right."""

import os
import signal
import subprocess
import sys
import tempfile
import threading
import time
import unittest
from collections.abc import Callable
from pathlib import Path

from whatif import Formula, Workbook


def slow_program(folder: str) -> str:
    """The program, but each `show` and each `changes` is answered a while later."""
    path = Path(folder, "slow")
    path.write_text(
        f"""#!{sys.executable}
import subprocess, sys, time
running = subprocess.Popen([{os.environ["WHATIF"]!r}], stdin=subprocess.PIPE, bufsize=0)
for line in iter(sys.stdin.buffer.readline, b""):
    if line.startswith((b"show B9", b"changes", b"scenario whatif_py_trial B7")):
        time.sleep(0.4)
    running.stdin.write(line)
running.stdin.close()
sys.exit(running.wait())
"""
    )
    path.chmod(0o755)
    return str(path)


class InterruptTest(unittest.TestCase):
    def setUp(self) -> None:
        kept = tempfile.TemporaryDirectory()
        self.addCleanup(kept.cleanup)
        self.folder = kept.name
        self.book = Workbook(slow_program(kept.name))
        self.addCleanup(self.book.close)
        self.book["B1"] = 250
        self.book["B9"] = Formula("=[.B1]+[.B2]+[.B7]")

    def interrupted(self, question: Callable[[], object], after: float = 0.1) -> None:
        """Asks, and interrupts."""
        timer = threading.Timer(after, lambda: os.kill(os.getpid(), signal.SIGINT))
        timer.start()
        try:
            with self.assertRaises(KeyboardInterrupt):
                question()
                time.sleep(5)
        finally:
            timer.join()

    def test_a_look(self) -> None:
        self.interrupted(lambda: self.book.show("B9"))
        self.assertEqual(self.book.show("B1:B1"), [["250"]])
        self.assertEqual(self.book.show("B9"), [["250"]])

    def test_a_what_if_leaves_no_trace(self) -> None:
        self.interrupted(lambda: self.book.what_if("B9", {"B1": 400}))
        self.assertEqual(self.book.what_if("B9", {"B2": 7}), 257)
        self.assertIsNone(self.book.scenario_in_use)
        self.assertEqual(self.book["B9"], 250)

    def test_the_first_command_of_a_what_if(self) -> None:
        self.interrupted(lambda: self.book.what_if("B9", {"B7": 400}))
        self.assertEqual(self.book.what_if("B9", {"B2": 7}), 257)
        self.assertEqual(self.book.show("B9"), [["250"]])

    def test_values_that_were_being_read(self) -> None:
        self.interrupted(lambda: self.book["B9"])
        self.assertEqual(self.book["B9"], 250)
        self.book["B2"] = 1
        self.assertEqual(self.book["B1:B9"][8], [251])

    def test_under_a_scenario(self) -> None:
        winter = self.book.scenario("winter", {"B1": 400})

        def ask() -> None:
            with self.book.using(winter):
                self.book.show("B9")

        self.interrupted(ask)
        self.assertEqual(self.book.show("B9"), [["250"]])
        winter.drop()

    def test_an_edit_that_was_accepted_is_saved(self) -> None:
        self.interrupted(lambda: self.book.command("scenario whatif_py_trial B7 1"))
        self.interrupted(lambda: self.book.show("B9"))
        self.book["B3"] = 5
        self.assertEqual(self.book.script(), "set B1 250\nset B9 =[.B1]+[.B2]+[.B7]\nset B3 5\n")

    def test_a_script_goes_on_in_its_session(self) -> None:
        ana = self.book.session("ana")
        self.interrupted(lambda: ana.what_if("B9", {"B1": 400}))
        self.assertEqual((ana.scenario_in_use, self.book.scenario_in_use), (None, None))
        self.assertEqual(self.book.run("use\nshow B1\n"), [[], [["250"]]])
        self.assertEqual(self.book._process.journal.session, "main")

    def test_a_busy_program_is_ended_by_closing(self) -> None:
        path = Path(self.folder, "busy")
        path.write_text("#!/bin/sh\nread line\nexec sleep 60\n")
        path.chmod(0o755)
        book = Workbook(str(path))
        self.interrupted(lambda: book.show("B9"))
        began = time.monotonic()
        self.assertEqual(book.close(), -signal.SIGTERM)
        self.assertLess(time.monotonic() - began, 30)


class TerminalTest(unittest.TestCase):
    def test_ctrl_c_at_the_terminal_doesnt_end_the_program(self) -> None:
        """The signal goes to all processes of the group, as from a terminal."""
        script = """
import os, signal, time, whatif
book = whatif.Workbook()
book["A1"] = 7
try:
    os.killpg(0, signal.SIGINT)
    time.sleep(5)
except KeyboardInterrupt:
    pass
print(book["A1"])
"""
        path = str(Path(__file__).resolve().parents[1])
        words = [sys.executable, "-c", script]
        ran = subprocess.run(words, capture_output=True, text=True, timeout=60, start_new_session=True, env={**os.environ, "PYTHONPATH": path})
        self.assertEqual((ran.stdout, ran.returncode), ("7\n", 0), ran.stderr)


if __name__ == "__main__":
    unittest.main()
