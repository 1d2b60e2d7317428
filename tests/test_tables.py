"""Tests of tests/scripts: how a table is read, and that a reply that is another, or comes at another time, is seen."""

import os
import subprocess
import sys

from tests import ROOT
from tests.scripts.tables import Script, Turn, scripts
from tests.support.scratch import ScratchTest, made_program

# Answers each line by `ok`.
STUB = f"""#!{sys.executable}
import os
while given := os.read(0, 4096):
    os.write(1, b"ok\\n" * given.count(b"\\n"))
"""
WHOLE = ["a", "a --keep 1", "a --keep 2"]
PIECES = ["a in pieces of 1", "a in pieces of 2", "a in pieces of 7"]
TABLE = rb"""# A head, whose lines are no script.
< nor replies
== spelled lines
@bytes set A1 {2 of x\x7b}\r\n
< "{3 of ab}","\xff"\r
# a comment
@rows 9..10 set A# =[.A#-1]+[.A#+1]
<2 ok
<1..2 "A#","\x5c"
== another
show A1
@fault 4 too long
"""


class Tables(ScratchTest):
    def read(self, table: bytes) -> list[Script]:
        path = self.folder / "some.cases"
        path.write_bytes(table)
        return scripts(path)

    def test_lines_are_read_as_they_are_spelled(self) -> None:
        first, other = self.read(TABLE)
        self.assertEqual(
            first.turns,
            [
                Turn(b"set A1 x{x{\r\n", b'"ababab","\xff"\r\n'),
                Turn(b"# a comment\nset A9 =[.A8]+[.A10]\nset A10 =[.A9]+[.A11]\n", b'ok\nok\n"A1","\\"\n"A2","\\"\n'),
            ],
        )
        self.assertEqual((first.title, first.status, first.is_large), ("spelled lines", 0, False))
        self.assertEqual((other.given, other.replies, other.status, other.fault), (b"show A1\n", b"", 4, b"too long"))

    def test_a_line_that_no_table_has_is_told(self) -> None:
        for line in (b"@unknown", b"<ok", b"@fault", b"@rows 1-2 x"):
            with self.subTest(line=line), self.assertRaises(ValueError):
                self.read(b"== title\n" + line + b"\n")

    def failures(self, table: bytes, patience: str = "60") -> tuple[int, list[str]]:
        """The status of the part on a table, and which runs fail, where each line is answered by `ok`."""
        stub = made_program(self.folder / "stub", STUB)
        (self.folder / "pair.whatif").write_bytes(b"set A1 1\n")
        (self.folder / "pair.out").write_bytes(b"ok\n")
        (self.folder / "some.cases").write_bytes(table)
        words = [str(ROOT / "tests/scripts/run"), "--patience", patience, str(self.folder)]
        ran = subprocess.run(words, env={**os.environ, "WHATIF": str(stub)}, capture_output=True, text=True)
        return ran.returncode, [line.partition(":")[0] for line in ran.stdout.splitlines() if ":" in line]

    def test_what_is_amiss_is_seen(self) -> None:
        for table, failed in (
            (b"== a\nset A1 1\n< ok\nset A2 1\n< ok\n", []),
            (b"== a\nset A1 1\n< ok\nset A2 1\n< ko\n", WHOLE + PIECES),
            (b"== a\nset A1 1\n< ko\nset A2 1\n< ok\n", WHOLE + PIECES),
            (b"== a\nset A1 1\nset A2 1\n< ok\n< ok\n< ok\n", WHOLE + PIECES),
            (b"== a\nset A1 1\n< ok\n@fault 4 why\n", WHOLE + PIECES),
        ):
            with self.subTest(table=table):
                self.assertEqual(self.failures(table), (1 if failed else 0, failed))

    def test_a_reply_that_comes_late_is_seen(self) -> None:
        self.assertEqual(self.failures(b"== a\nset A1 1\n< ok\n< ok\nset A2 1\nset A3 1\n< ok\n", patience="0.3"), (1, PIECES))
