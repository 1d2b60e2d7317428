"""Tests of tests/run, which runs the parts, and of ./test, which runs it behind `rt ci`."""

import os
import shutil
import subprocess
import unittest
from pathlib import Path
from unittest import mock

from tests import packages
from tests.support.loading import loaded
from tests.support.scratch import ScratchTest, made_script

FOLDER = Path(__file__).resolve().parent


runner = loaded(FOLDER / "run")


class Parts(ScratchTest):
    def test_the_counts_of_a_part(self) -> None:
        for written, status, counts in (
            ("3 passed, 0 failed\n", 0, "3 passed, 0 failed"),
            ("what is amiss\n3 passed, 2 failed\n", 1, "3 passed, 2 failed"),
            ("3 passed, 0 failed, 1 skipped\n", 0, "3 passed, 0 failed, 1 skipped"),
            ("skipped: no C compiler\n", 0, "0 passed, 0 failed, 1 skipped"),
            ("skipped: no C compiler\n", 1, "0 passed, 1 failed"),
            ("3 passed, 0 failed\n", 1, "3 passed, 1 failed"),
            ("3 passed, 2 failed\n", 0, "3 passed, 3 failed"),
            ("3 passed, 0 failed\nTraceback\n", 1, "0 passed, 1 failed"),
            ("3 passed, 0 failed (almost)\n", 0, "0 passed, 1 failed"),
            ("", 0, "0 passed, 1 failed"),
            ("", -11, "0 passed, 1 failed"),
        ):
            with self.subTest(written=written, status=status):
                self.assertEqual(str(runner.Part("part", written, status, 0).counts()), counts)

    def test_parts_are_run_and_counted_together(self) -> None:
        made_script(self.folder / "well", "echo $WHATIF; echo '3 passed, 0 failed, 1 skipped'")
        made_script(self.folder / "amiss", "echo 2 is no 3; echo '1 passed, 1 failed'; exit 1")
        made_script(self.folder / "crash", "kill -SEGV $$")
        parts = [str(self.folder / name) for name in ("well", "amiss", "crash", "missing")]
        ran = subprocess.run([str(FOLDER / "run"), *parts], capture_output=True, text=True, env={**os.environ, "WHATIF": "/bin/true"})
        self.assertEqual((ran.returncode, ran.stdout.splitlines()[-1]), (1, "4 passed, 3 failed, 1 skipped"))
        self.assertIn("/bin/true\n3 passed, 0 failed, 1 skipped\n", ran.stdout)
        self.assertIn("2 is no 3\n1 passed, 1 failed\n", ran.stdout)

    def test_each_part_is_there(self) -> None:
        for name in runner.PARTS:
            self.assertTrue(os.access(runner.ROOT / name, os.X_OK), name)

    def skipping(self, *words: str) -> tuple[int, list[str]]:
        """The exit status and the last two lines of tests/run over two parts, of which one skips."""
        made_script(self.folder / "well", "echo '3 passed, 0 failed'")
        made_script(self.folder / "lacks", "echo '4 passed, 0 failed, 2 skipped'")
        parts = [str(self.folder / name) for name in ("well", "lacks")]
        ran = subprocess.run([str(FOLDER / "run"), *words, *parts], capture_output=True, text=True, env={**os.environ, "WHATIF": "/bin/true"})
        return ran.returncode, ran.stdout.splitlines()[-2:]

    def test_what_was_skipped_is_told(self) -> None:
        status, lines = self.skipping()
        self.assertEqual((status, lines[1]), (0, "7 passed, 0 failed, 2 skipped"))
        self.assertTrue(lines[0].startswith(f"2 skipped: 2 of {self.folder / 'lacks'}; "), lines[0])
        wanted = packages.missing()
        self.assertIn(f"apt-get install {' '.join(wanted)}" if wanted else "isn't named in tests/packages.py", lines[0])

    def test_with_all_a_skip_is_a_failure(self) -> None:
        status, lines = self.skipping("--all")
        self.assertEqual((status, lines[1]), (1, "7 passed, 2 failed"))
        self.assertIn("2 skipped: ", lines[0])
        ran = subprocess.run([str(FOLDER / "run"), "--all", str(self.folder / "well")], capture_output=True, text=True,
                             env={**os.environ, "WHATIF": "/bin/true"})
        self.assertEqual((ran.returncode, ran.stdout.splitlines()[-1]), (0, "3 passed, 0 failed"))

    def test_packages_that_are_not_there_are_named(self) -> None:
        there = {"one": lambda: True, "other": lambda: False, "two names": lambda: False}
        with mock.patch.object(packages, "PACKAGES", there):
            self.assertEqual(packages.missing(), ["other", "two names"])
            with mock.patch.object(runner, "missing", packages.missing):
                told = runner.told_of_skips({"part": 1, "a part": 2})
        self.assertEqual(told, "3 skipped: 2 of a part, 1 of part; they run on Debian after: apt-get install other two names")

    def test_a_package_is_seen_by_what_it_brings(self) -> None:
        self.assertFalse(packages.command("no-such-command")())
        self.assertTrue(packages.command("sh")())
        self.assertFalse(packages.succeeds(["no-such-command"]))
        self.assertFalse(packages.compiles("#include <no-such-header.h>\n")())

    def test_the_newer_of_two_programs_is_tried(self) -> None:
        places = [self.folder / it for it in ("crates/whatif/out/whatif", "out/proved/whatif")]
        with mock.patch.object(runner, "ROOT", self.folder), mock.patch.dict(os.environ):
            os.environ.pop("WHATIF", None)
            for newer in places:
                for it in places:
                    made_script(it, "")
                    os.utime(it, (2, 2) if it == newer else (1, 1))
                self.assertEqual(runner.program(), str(newer))
            for it in places:
                it.unlink()
            made_script(self.folder / "prove", f"echo > '{places[1]}'")
            self.assertEqual(runner.program(), str(places[1]))
            self.assertTrue(places[1].exists())

    def test_no_program_is_a_failure(self) -> None:
        ran = subprocess.run([str(FOLDER / "run")], capture_output=True, text=True, env={**os.environ, "WHATIF": str(self.folder / "none")})
        self.assertEqual((ran.returncode, ran.stdout.splitlines()[-1]), (1, "0 passed, 1 failed"))


class TestCommand(ScratchTest):
    def called(self, gate: str, parts: str) -> tuple[int, list[str]]:
        """The exit status of ./test and its last two lines, where `rt` and tests/run do this."""
        for name in ("test", "start/programs"):
            (self.folder / name).parent.mkdir(exist_ok=True)
            shutil.copy(FOLDER.parent / name, self.folder / name)
        made_script(self.folder / "bin/rt", gate)
        made_script(self.folder / "tests/run", parts)
        path = f"{self.folder / 'bin'}:{os.environ['PATH']}"
        ran = subprocess.run([str(self.folder / "test")], capture_output=True, text=True, env={**os.environ, "PATH": path})
        return ran.returncode, ran.stdout.splitlines()[-2:]

    def closing(self, gate: str, parts: str) -> tuple[int, str]:
        status, lines = self.called(gate, parts)
        return status, lines[-1]

    def test_what_was_skipped_is_told_before_the_last_line(self) -> None:
        parts = "echo '2 skipped: 2 of a part; why'; echo '10 passed, 0 failed, 2 skipped'"
        self.assertEqual(self.called("echo '376 passed, 0 failed'", parts), (0, ["2 skipped: 2 of a part; why", "386 passed, 0 failed"]))
        _, lines = self.called("echo '376 passed, 0 failed'", "echo '10 passed, 0 failed'")
        self.assertFalse(lines[0].startswith("2 skipped"), lines[0])

    def test_where_all_is_there_a_skip_fails_the_gate(self) -> None:
        (self.folder / ".ci").mkdir()
        shutil.copy(FOLDER.parent / ".ci/run", self.folder / ".ci/run")
        made_script(self.folder / "test", 'echo "words: $*"')
        (self.folder / "tests").mkdir()
        for status, words in ((0, "words: --all\n"), (1, "words: \n")):
            (self.folder / "tests/packages.py").write_text(f"print('a package'); raise SystemExit({status})")
            ran = subprocess.run([str(self.folder / ".ci/run")], capture_output=True, text=True, check=True)
            self.assertEqual(ran.stdout, words)

    def test_its_last_line_tells_of_both(self) -> None:
        well, skipping = "echo '376 passed, 0 failed'", "echo '10 passed, 0 failed, 2 skipped'"
        self.assertEqual(self.closing(well, skipping), (0, "386 passed, 0 failed"))
        for gate, parts, last in (
            (well, "echo '10 passed, 1 failed'; exit 1", "10 passed, 1 failed"),
            (well, "echo '10 passed, 0 failed'; exit 1", "0 passed, 1 failed"),
            (well, "echo nothing", "0 passed, 1 failed"),
            ("echo '3 passed, 2 failed'; exit 1", skipping, "3 passed, 2 failed"),
            ("echo '3 passed, 0 failed'; exit 3", skipping, "0 passed, 1 failed"),
            ("exit 2", skipping, "0 passed, 1 failed"),
        ):
            with self.subTest(gate=gate, parts=parts):
                self.assertEqual(self.closing(gate, parts), (1, last))


if __name__ == "__main__":
    unittest.main()
