"""The shell: what it says under a pseudo-terminal, and the script that it keeps."""

import os
import pty
import re
import select
import signal
import subprocess
import sys
import tempfile
import time
import unittest
from pathlib import Path

from whatif_tools.program import ROOT, program, program_help

from whatif_tools.shell import Leave, Shell
from whatif_tools.terminal import completed

TOOL = str(ROOT / "tools" / "whatif-shell")
SECONDS = 60
PROMPT = re.compile(r"(?:^|\n)(\w+(?:/\w+)?> |[0-9]+ lines? more> )$")


class Terminal:
    """The shell at a pseudo-terminal: what is typed, and what it writes up to its next prompt."""

    def __init__(self, *words: str) -> None:
        self.child, self.terminal = pty.fork()
        if self.child == 0:
            os.environ.update(TERM="dumb", INPUTRC="/dev/null")
            os.execv(sys.executable, [sys.executable, TOOL, *words])

    def read(self) -> str:
        """What is written up to a prompt, or to the end."""
        written, end = "", time.monotonic() + SECONDS
        while not PROMPT.search(written):
            if not select.select([self.terminal], [], [], max(end - time.monotonic(), 0))[0]:
                raise TimeoutError(written)
            try:
                part = os.read(self.terminal, 4096)
            except OSError:
                break
            if not part:
                break
            written = re.sub(r"\x1b\[[?0-9;]*[a-zA-Z]|[\r\x07]", "", written + part.decode())
        return written

    def type(self, text: str) -> str:
        os.write(self.terminal, text.encode())
        return self.read()

    def interrupt(self) -> str:
        """Ctrl-C, again where it came before the library waited for a key: then it is noticed with the next one alone."""
        for _ in range(SECONDS):
            os.write(self.terminal, b"\x03")
            if select.select([self.terminal], [], [], 1)[0]:
                break
        return self.read()

    def close(self) -> int:
        os.close(self.terminal)
        return os.waitpid(self.child, 0)[1]


class AtATerminal(unittest.TestCase):
    def setUp(self) -> None:
        self.terminal = Terminal()
        self.addCleanup(self.end)
        self.assertTrue(self.terminal.read().endswith("Ctrl-D ends\nmain> "))

    def end(self) -> None:
        try:
            os.kill(self.terminal.child, signal.SIGKILL)
        except ProcessLookupError:
            return
        self.terminal.close()

    def typed(self, line: str) -> str:
        """What is written behind a line, without its echo."""
        return self.terminal.type(line + "\n").removeprefix(line + "\n")

    def test_a_talk(self) -> None:
        for line, written in (
            ("set A1 250", "ok\nmain> "),
            ("set A2 =[.A1]*2", "ok\nmain> "),
            ("csv C1 2", "2 lines more> "),
            ("show A1", "1 line more> "),
            ("7", "ok\nmain> "),
            ("show A1:C2", "     A  B  C\n1  250     show A1\n2  500           7\nmain> "),
            ("scenario winter A1 400", "ok\nmain> "),
            ("use winter", "ok\nmain/winter> "),
            ("as ana", "ok\nana> "),
            ("compare - winter A1:A2", "cell    -  winter  difference\nA1    250     400         150\nA2    500     800         300\nana> "),
            ("undo", "taken back: as ana\nmain/winter> "),
            ("set B1 12,5", "ok\na text, no number: '12,5'; decimals have a point: write 12.5\nmain/winter> "),
        ):
            self.assertEqual(self.typed(line), written, line)

    def test_a_refusal(self) -> None:
        written = self.typed("set A1 =SUM(A1:A2)")
        said = "refused E05: the formula's syntax; a cell is written in brackets, with a point: write [.A1:.A2]\n"
        self.assertEqual(written, f"{said}    set A1 =SUM(A1:A2)\n                ^\nmain> ")

    def test_history_and_completion(self) -> None:
        self.typed("set A1 5")
        self.assertIn("set A1 5", self.terminal.type("\x1b[A\n"))
        self.assertTrue(self.terminal.type("sh\tA1\n").endswith("A\n1  5\nmain> "))
        self.typed("set B1 =QUOT\t[.A1];2)")
        self.assertTrue(self.typed("show B1").endswith("1  2\nmain> "))

    def test_interrupts(self) -> None:
        """Ctrl-C takes back what is begun, and the workbook goes on."""
        self.typed("set A1 5")
        self.assertTrue(self.terminal.type("csv B1 3\n").endswith("3 lines more> "))
        self.assertTrue(self.terminal.interrupt().endswith("main> "))
        self.assertTrue(self.typed("show A1").endswith("1  5\nmain> "))

    def test_end(self) -> None:
        self.terminal.type("\x04")
        self.assertEqual(os.waitpid(self.terminal.child, 0)[1], 0)


class Scripts(unittest.TestCase):
    def setUp(self) -> None:
        self.folder = tempfile.TemporaryDirectory()
        self.addCleanup(self.folder.cleanup)
        self.path = Path(self.folder.name) / "s.whatif"
        self.shell = Shell(program(), program_help())
        self.addCleanup(lambda: self.shell.close(self.shell.book))

    def take(self, *lines: str) -> str:
        for line in lines:
            self.shell.take(line)
        return self.shell.told()

    def test_what_is_saved_is_the_script(self) -> None:
        self.shell.take("csv A1 2", ("1,2", '"x"'))
        self.take("set B9 =A1", "show A1", "# a comment", "scenario s A1 3", f"save {self.path}")
        self.assertEqual(self.path.read_text(), 'csv A1 2\n1,2\n"x"\nshow A1\nscenario s A1 3\n')
        self.assertIn("is there already", self.take(f"save {self.path}"))
        self.assertIn("3 commands are in", self.take(f"save! {self.path}"))
        self.assertIn("No such file", self.take("save /nowhere/s.whatif"))

    def test_undo(self) -> None:
        self.take("set A1 1", "show A1", "set A1 2", "show A1")
        self.assertEqual(self.take("undo", "show A1"), "taken back: set A1 2\n   A\n1  1\n")
        self.assertEqual([command.text for command in self.shell.accepted], ["set A1 1", "show A1", "show A1"])
        self.assertIn("taken back: set A1 1", self.take("undo"))
        self.assertIn("nothing to take back", self.take("undo"))

    def test_undo_with_sessions(self) -> None:
        self.take("as ana", "changes", "as bo", "set A1 1", "as ana")
        self.assertIn("refused E18 A1", self.take("set A1 2"))
        self.take("changes", "set A1 2", "undo", "undo")
        self.assertIn("refused E18 A1", self.take("set A1 3"))

    def test_load(self) -> None:
        self.path.write_text("set A1 5\nset A2 =A1\n# a comment\nset A3 =[.A1]*2\n")
        told = self.take(f"load {self.path}")
        self.assertTrue(told.startswith(f"{self.path}:2: refused E05"), told)
        self.assertTrue(told.endswith("3 commands, of which 1 were refused\n"), told)
        self.assertEqual(self.take("show A3"), "    A\n3  10\n")
        self.assertIn("No such file", self.take("load nowhere.whatif"))

    def test_after_an_interrupt(self) -> None:
        self.take("set A1 5", "scenario s A1 6", "use s")
        self.shell.interrupted()
        self.assertEqual(self.shell.prompt(), "main/s> ")
        self.assertTrue(self.take("show A1").endswith("1  6\n"))

    def test_words(self) -> None:
        self.assertIn("table F R XCOLUMN", self.take("help"))
        with self.assertRaises(Leave):
            self.take("quit")

    def test_completion(self) -> None:
        self.take("scenario winter A1 5", "as ana")
        for line, begun, found in (
            ("comp", "comp", ["compare "]),
            ("use wi", "wi", ["winter "]),
            ("as a", "a", ["ana"]),
            ("set A1 =rou", "rou", ["ROUND(", "ROUNDDOWN(", "ROUNDUP("]),
            ("show A", "A", []),
        ):
            self.assertEqual(completed(line, begun, self.shell), found, line)

    def test_without_a_terminal(self) -> None:
        done = subprocess.run([TOOL], input=b"set A1 5\nshow A1\n", capture_output=True)
        self.assertEqual((done.returncode, done.stdout), (0, b"ok\n   A\n1  5\n"))
        done = subprocess.run([TOOL], capture_output=True, env={**os.environ, "WHATIF": "/nowhere/whatif"})
        self.assertEqual(done.returncode, 2)
