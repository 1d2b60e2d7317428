"""The exit status where memory is refused before anything of a script was read, what `--keep` does to requests for memory, and how much a
cell takes."""

import re
import resource
import subprocess
import unittest
from collections.abc import Callable
from dataclasses import dataclass
from pathlib import Path

from tests.devices.calls import MEMORY, WELL, DeviceTest, call, exactly
from tests.refused.program import Program, Refusal, compiled, compiler
from tests.support.program import PROGRAM

LOADED = b"set A1 5\nshow A1\n"
LOADED_REPLIES = b'ok\n"5"\r\nok\n'
GIVEN = b"show A1\n"
GIVEN_REPLIES = b'"5"\r\nok\n'
THOUSAND_TEXTS = b'set A1 1\nset B1 ="a text, longer than a word: "&[.A$1]\nfill B1 B2:B1000\nshow B1:B1000\n'
THE_LAST_FIRST = b"".join(b"show B%d\n" % row for row in range(1000, 0, -1))


@unittest.skipUnless(compiler(), "no C compiler")
class RefusedMemory(DeviceTest):
    def setUp(self) -> None:
        super().setUp()
        allocator = compiled("refuse", self.folder)
        assert allocator
        self.program = Program(PROGRAM, allocator)

    def test_without_memory_nothing_is_read_and_nothing_written(self) -> None:
        run = self.program.run(GIVEN, (), Refusal(1, is_lasting=True))
        self.assertEqual((run.status, run.written), (MEMORY, b""))
        self.assertRegex(run.told, rb"\Awhatif: out of memory; [^\n]+\n\Z")

    def test_each_request_of_two_scripts_refused_in_turn(self) -> None:
        words = ("--load", str(self.file("plan", LOADED)))
        most = self.program.run(GIVEN, words).requests
        self.assertGreater(most, 0)
        ended_by_memory = set()
        written: dict[int, set[bytes]] = {1: set(), 2: set()}
        for request in range(1, most + 1):
            for count in written:
                with self.subTest(request=request, count=count):
                    run = self.program.run(GIVEN, words, Refusal(request, count=count))
                    self.assertIn(run.refused, range(1, count + 1))
                    if run.status == MEMORY:
                        ended_by_memory.add(run.written)
                        self.assertRegex(run.told, rb"\Awhatif: [^\n]+; [^\n]+\n\Z")
                    else:
                        self.assertEqual((run.status, run.told), (WELL, b""))
                        written[count].add(run.written)
        self.assertEqual(ended_by_memory, {b"", LOADED_REPLIES})
        self.assertEqual(written[1], {LOADED_REPLIES + GIVEN_REPLIES})
        self.assertEqual(written[2] | written[1], self.with_one_refused())

    def with_one_refused(self) -> set[bytes]:
        """What is written where one command at most is answered E01, which is where it lacks memory twice."""
        return {
            LOADED_REPLIES + GIVEN_REPLIES,
            b'refused E01\n""\r\nok\n""\r\nok\n',
            b'ok\nrefused E01\n"5"\r\nok\n',
            LOADED_REPLIES + b"refused E01\n",
        }

    def test_as_many_values_are_kept_as_are_asked_for(self) -> None:
        """A text that is evaluated takes more requests than one that is kept. So where the values are asked for once more, from the last one
        that was kept on, there are fewer requests, the more values may be kept, until all thousand are."""
        script = THOUSAND_TEXTS + THE_LAST_FIRST
        requests = {keep: self.program.run(script, ("--keep", str(keep))).requests for keep in (1, 2, 100, 999, 1000, 65_536)}
        counts = list(requests.values())
        self.assertEqual(counts[:5], sorted(set(counts[:5]), reverse=True), requests)
        self.assertEqual(requests[65_536], requests[1000])
        self.assertLess(self.program.run(script, ()).requests, requests[1000])


@dataclass(frozen=True)
class Exchange:
    """Exchange with their replies."""

    script: str
    replies: str


LONGEST = 32_767
"""The bytes of the longest text."""


class MemoryThatEnds(DeviceTest):
    """Cached texts that would fill more than the program may have: what is cached goes before a command is refused."""

    SPACE = 64 << 20
    TEXTS = 3_000

    def replies(self, parts: list[Exchange]) -> str:
        """What is written where the program may have so much."""
        ended = call(given="".join(part.script for part in parts).encode(), before=lambda: resource.setrlimit(resource.RLIMIT_AS, (self.SPACE, self.SPACE)))
        self.assertEqual((ended.status, ended.told), (WELL, b""))
        return ended.written.decode()

    def filled(self) -> list[Exchange]:
        """Questions for the lengths of many texts, whose values are cached with the texts."""
        self.assertGreater(self.TEXTS * LONGEST, self.SPACE)
        texts = f'set A1 =REPT("x";{LONGEST})\nfill A1 A1:A{self.TEXTS}\nset B1 =LEN([.A1])\nfill B1 B1:B{self.TEXTS}\n'
        lengths = (Exchange(f"show B{row}\n", f'"{LONGEST}"\r\nok\n') for row in range(1, self.TEXTS + 1))
        return [Exchange(texts, "ok\n" * 4), *lengths]

    def assert_replies(self, parts: list[Exchange]) -> None:
        wanted = "".join(part.replies for part in parts)
        self.assertTrue(self.replies(parts) == wanted, "other replies than are wanted")

    def test_each_question_is_answered(self) -> None:
        self.assert_replies(self.filled())

    def test_a_command_that_is_too_large_is_refused_and_those_behind_it_are_done(self) -> None:
        too_large = Exchange(f"show A1:A{self.TEXTS}\n", "refused E01\n")
        text = "y" * LONGEST
        more = [
            Exchange("set C1 7\nfill C1 C1:C5000\nshow C5000\n", 'ok\nok\n"7"\r\nok\n'),
            Exchange(f"csv D1 2\n{text},1\n2,3\nshow D1:E2\n", f'ok\n"{text}","1"\r\n"2","3"\r\nok\n'),
            Exchange("scenario dear A1 z\nuse dear\nshow B1:B2\n", f'ok\nok\n"1"\r\n"{LONGEST}"\r\nok\n'),
        ]
        self.assert_replies([*self.filled(), too_large, *more, too_large, *more])


def numbers(count: int) -> list[str]:
    return [f"set A{row} {row}" for row in range(1, count + 1)]


def chain(count: int) -> list[str]:
    """Formulas that each add one to the cell above, below a number."""
    return ["set A1 1"] + [f"set A{row} =[.A{row - 1}]+1" for row in range(2, count + 1)]


class MemoryOfCells(DeviceTest):
    """The bounds are those that were asked of the program: docs/BENCH.md has what it takes."""

    FEW, MANY = 60_000, 120_000

    def greatest_memory(self, script: list[str], more: str, reply: str) -> int:
        """The most bytes that a run had once it replied to a script and to a command more."""
        plan = self.file("plan", "".join(f"{line}\n" for line in script).encode())
        pipe = subprocess.PIPE
        with subprocess.Popen([PROGRAM, "--load", str(plan)], stdin=pipe, stdout=pipe, bufsize=0) as process:
            assert process.stdin and process.stdout
            process.stdin.write(f"{more}\n".encode())
            replies = b"ok\n" * len(script) + reply.encode()
            self.assertEqual(exactly(process.stdout, len(replies)), replies)
            peak = re.search(r"^VmHWM:\s*(\d+) kB$", Path(f"/proc/{process.pid}/status").read_text(), re.MULTILINE)
            assert peak
            process.stdin.close()
        return int(peak[1]) * 1024

    def bytes_of_one(self, script: Callable[[int], list[str]], is_last_shown: bool) -> float:
        """What each of some cells more takes."""
        few, many = (
            self.greatest_memory(script(count), f"show A{count if is_last_shown else 1}", f'"{count if is_last_shown else 1}"\r\nok\n')
            for count in (self.FEW, self.MANY)
        )
        return (many - few) / (self.MANY - self.FEW)

    def test_a_number_takes_150_bytes_at_most(self) -> None:
        self.assertLessEqual(self.bytes_of_one(numbers, is_last_shown=False), 150)

    def test_a_formula_takes_600_bytes_at_most(self) -> None:
        self.assertLessEqual(self.bytes_of_one(chain, is_last_shown=False), 600)

    def test_a_formula_with_its_value_takes_850_bytes_at_most(self) -> None:
        self.assertLessEqual(self.bytes_of_one(chain, is_last_shown=True), 850)
