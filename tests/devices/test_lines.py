"""Lines: their limit, their ends, and when each is answered."""

import select
import time
from pathlib import Path

from tests import ROOT
from tests.devices.calls import SCRIPT_LIMIT, SECONDS, WELL, DeviceTest, call, exactly, started

MOST = 1_000_000
PAUSE = 0.002
QUIET = 0.05
SCRIPTS = ROOT / "tests/scripts"
IN_PIECES = ("import-and-export", "table-two-inputs", "lost-updates", "which-lines-are-data", "field-not-utf8-and-cut")


class LineLimit(DeviceTest):
    def test_a_script_may_have_a_million_lines(self) -> None:
        self.assert_ended(call(given=b"\n" * MOST), WELL, b"")
        self.assert_ended(call(given=b"\n" * (MOST - 1) + b"show A1\n"), WELL, b'""\r\nok\n')
        self.assert_ended(call(given=b"\n" * (MOST - 1) + b"show A1"), WELL, b'""\r\nok\n')

    def test_the_first_byte_of_the_next_line_ends_the_script(self) -> None:
        for more in (b"\n", b"s", b"show A1\n", b"#"):
            with self.subTest(more=more):
                self.assert_ended(call(given=b"show A1" + b"\n" * MOST + more), SCRIPT_LIMIT, b'""\r\nok\n')

    def test_a_csv_that_the_limit_cuts_is_not_answered(self) -> None:
        script = b"set A1 5\n" + b"\n" * (MOST - 2) + b"csv A1 1\n"
        self.assert_ended(call(given=script + b"7\n"), SCRIPT_LIMIT, b"ok\n")
        self.assert_ended(call(given=script), WELL, b"ok\nrefused E13\n")


class LastLine(DeviceTest):
    def test_a_last_line_without_its_end_is_a_line(self) -> None:
        for script, replies in (
            (b"set A1 5\nshow A1", b'ok\n"5"\r\nok\n'),
            (b"set A1 x\r\nshow A1\r", b'ok\n"x"\r\nok\n'),
            (b"csv A1 1\nx,y", b"ok\n"),
            (b"csv A1 2\nx,y", b"refused E13\n"),
            (b"# a comment", b""),
            (b"  ", b""),
            (b"set A1", b"refused E02\n"),
        ):
            with self.subTest(script=script):
                self.assert_ended(call(given=script), WELL, replies)

    def test_data_without_their_last_line_end(self) -> None:
        self.assert_ended(call(["--load", str(self.file("plan", b"csv A1 1\nx,7"))], given=b"show A1:B1\n"), WELL, b'ok\n"x","7"\r\nok\n')


class Pieces(DeviceTest):
    def in_pieces(self, script: bytes, size: int) -> tuple[bytes, int]:
        """What is written for a script that comes some bytes at a time, and the exit status."""
        with started() as process:
            assert process.stdin and process.stdout and process.stderr
            for at in range(0, len(script), size):
                process.stdin.write(script[at : at + size])
                time.sleep(PAUSE)
            process.stdin.close()
            return process.stdout.read(), process.wait(SECONDS)

    def test_a_script_in_pieces_gives_the_same_bytes(self) -> None:
        for name in IN_PIECES:
            script = Path(SCRIPTS / f"{name}.whatif").read_bytes()
            wanted = Path(SCRIPTS / f"{name}.out").read_bytes()
            for size in (1, 7):
                with self.subTest(name=name, size=size):
                    self.assertEqual(self.in_pieces(script, size), (wanted, WELL))

    def test_each_line_is_answered_before_the_next_one_comes(self) -> None:
        dialogue = [
            (b"set A1 5\n", b"ok\n"),
            (b"# a comment\n\nset A2 =[.A1]*2\n", b"ok\n"),
            (b"show A1:A2\n", b'"5"\r\n"10"\r\nok\n'),
            (b"frob\n", b"refused E02\n"),
            (b"csv B1 2\n", b""),
            (b'"two\n', b""),
            (b'lines",7\n', b"ok\n"),
            (b"show B1:", b""),
            (b"C1\n", b'"two\nlines","7"\r\nok\n'),
            (b"changes", b""),
        ]
        with started() as process:
            assert process.stdin and process.stdout and process.stderr
            for given, reply in dialogue:
                process.stdin.write(given)
                self.assertEqual(exactly(process.stdout, len(reply)), reply, given)
                self.assertEqual(select.select([process.stdout], [], [], QUIET)[0], [], f"more is written after {given!r}")
            process.stdin.close()
            last = b'"A1","N","5"\r\n"B1","T","two\nlines"\r\n"C1","N","7"\r\n"A2","N","10"\r\nok\n'
            self.assertEqual((process.stdout.read(), process.wait(SECONDS)), (last, WELL))
