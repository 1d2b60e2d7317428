"""Which words are options, and what is told of those that aren't: the calls of words.cases."""

import re
import subprocess
import unittest
from dataclasses import dataclass
from pathlib import Path

from tests.devices.calls import DEVICE, SECONDS, USAGE, WELL, DeviceTest
from tests.refused.program import Program, compiled, compiler
from tests.support.program import PROGRAM, Ended

TABLE = Path(__file__).resolve().parent / "words.cases"
OPTIONS = re.compile(r"(?:no load|load (.*)), keep ([0-9]+)")
FAULT = re.compile(r"(usage|help|version), status ([0-9])")
NOTE = re.compile(rb"\0rattle logic=[0-9a-f]+\0")
"""What the toolchain writes into the file of a program that is proved."""

VERSION = (Path(__file__).resolve().parents[2] / "VERSION").read_text().strip()
TEXTS = 20
CHAIN = "".join(["set A1 text, longer than a word\n", *(f'set A{row + 1} =[.A{row}]&"x"\n' for row in range(1, TEXTS + 1))])
THE_LAST_FIRST = "".join(f"show A{row + 1}\n" for row in range(TEXTS, 0, -1)) * 2


@dataclass
class Call:
    """The words of a call, what they are, and the text that is told, where it stands in the table."""

    place: str
    words: list[str]
    answer: str
    text: list[str]


def calls() -> list[Call]:
    """The calls of the table."""
    found: list[Call] = []
    for line in TABLE.read_text(encoding="utf-8").splitlines():
        if line.startswith("|"):
            found[-1].text.append(line[1:])
        elif line and not line.startswith(("#", "==")):
            words, _, answer = line.partition(" -> ")
            found.append(Call(line, ["" if word == "''" else word for word in words.split()], answer, []))
    return found


class Calls(DeviceTest):
    def called(self, words: list[str], given: bytes = b"show A1\n") -> Ended:
        """Calls the program by the first of some words."""
        ran = subprocess.run(words, executable=PROGRAM, input=given, capture_output=True, cwd=self.inner, timeout=SECONDS)
        return Ended(ran.returncode, ran.stdout, ran.stderr)

    def setUp(self) -> None:
        super().setUp()
        self.inner = self.folder / "inner"
        self.inner.mkdir()

    def assert_loads(self, call: Call, path: str) -> None:
        """The file of that path is run first; one that has no name can't be opened."""
        if path:
            file = self.inner / path
            file.parent.mkdir(exist_ok=True)
            file.write_text(f"set A1 'as {path}\n", encoding="utf-8")
            self.assert_ended(self.called(call.words), WELL, f'ok\n"as {path}"\r\nok\n'.encode())
            file.unlink()
        ended = self.called(call.words)
        self.assert_ended(ended, DEVICE, b"")
        self.assertTrue(ended.told.startswith(f"whatif: {path} can't be opened, ".encode()), ended.told)

    def assert_refused(self, call: Call, kind: str, status: int) -> None:
        """Nothing but the text is written, that of wrong words on standard error and else on standard output."""
        ended = self.called(call.words)
        text, other = (ended.told, ended.written) if kind == "usage" else (ended.written, ended.told)
        self.assertEqual((ended.status, other, status), (status, b"", USAGE if kind == "usage" else WELL))
        self.assertRegex(text.decode(), {"usage": r"\Aerror: .*\n", "help": r"\ARuns .*\n", "version": r"\Awhatif [0-9]"}[kind])
        if call.text:
            self.assertEqual(text.decode().splitlines(), call.text)

    def test_each_call_of_the_table(self) -> None:
        for call in calls():
            with self.subTest(call=call.place):
                options, fault = OPTIONS.fullmatch(call.answer), FAULT.fullmatch(call.answer)
                if fault:
                    self.assert_refused(call, fault[1], int(fault[2]))
                elif options and options[1] is not None:
                    self.assert_loads(call, options[1])
                else:
                    self.assertTrue(options)
                    self.assert_ended(self.called(call.words), WELL, b'""\r\nok\n')

    def test_the_version_and_whether_its_file_says_that_it_is_proved(self) -> None:
        proved = "proved" if NOTE.search(Path(PROGRAM).read_bytes()) else "not proved"
        self.assert_ended(self.called(["whatif", "--version"]), WELL, f"whatif {VERSION}\n{proved}\n".encode())

    @unittest.skipUnless(compiler(), "no C compiler")
    def test_as_many_values_are_kept_as_the_words_say(self) -> None:
        """Told by requests for memory: the more texts may be kept, the fewer are evaluated again, until all are kept."""
        allocator = compiled("refuse", self.folder)
        assert allocator
        program = Program(PROGRAM, allocator)

        def requests(*words: str) -> int:
            """Those that a script takes, but for what its call takes."""
            few, all_of_it = (program.run(given, words).requests for given in (b"", (CHAIN + THE_LAST_FIRST).encode()))
            return all_of_it - few

        found = {keep: requests("--keep", str(keep)) for keep in range(1, TEXTS + 1)}
        self.assertEqual(len(set(found.values())), TEXTS, found)
        asked = [(call, options) for call in calls() if (options := OPTIONS.fullmatch(call.answer)) and options[1] is None]
        self.assertTrue(asked)
        for call, options in asked:
            with self.subTest(call=call.place):
                self.assertEqual(requests(*call.words[1:]), found[min(int(options[2]), TEXTS)])
