"""The parts of a sweep by themselves: the examples of their docstrings, replies in a row, chunks, a run on an executor that fails."""

import doctest
import hashlib
import importlib
import unittest
from concurrent.futures import BrokenExecutor, Future

from tests.sweep.sweeping import SOLAR, SweepTest, solar_sets
from tests.support.program import PROGRAM
from whatif.sweeps import drive, folder, names, plan
from whatif.sweeps.chunk import lines, program, replies, run
from whatif.sweeps.chunk.job import Job

MODULES = ["chunk.job", "chunk.lines", "copying", "head", "names", "plan", "progress"]


def load_tests(_loader: unittest.TestLoader, tests: unittest.TestSuite, _pattern: str) -> unittest.TestSuite:
    for name in MODULES:
        tests.addTests(doctest.DocTestSuite(importlib.import_module(f"whatif.sweeps.{name}")))
    return tests


class ChunkTest(SweepTest):
    def setUp(self) -> None:
        super().setUp()
        self.plan = plan.planned(PROGRAM, plan.Asked("solar", SOLAR.read_bytes(), 1, ["B1", "B3", "B4", "B6"], ["B10"]))
        self.job = self.plan.job.to_bytes()
        self.data = "".join(line + "\n" for line in solar_sets(50)[1:]).encode()

    def test_what_a_chunk_gives_checks_itself(self) -> None:
        given = run.run_chunk(self.job, PROGRAM, 2, self.data)
        key = run.key_of(self.job, 2, self.data)
        done = run.checked(key, given)
        assert done
        self.assertEqual(done.count, 50)
        for at in range(0, len(given), 97):
            harmed = given[:at] + bytes([given[at] ^ 4]) + given[at + 1 :]
            self.assertIsNone(run.checked(key, harmed), at)
        self.assertIsNone(run.checked(key, given[:-1]))
        self.assertIsNone(run.checked(key, given + b"x"))
        self.assertIsNone(run.checked(run.key_of(self.job, 3, self.data), given))
        self.assertIsNone(run.checked(run.key_of(self.job, 2, self.data + b"\n"), given))

    def test_a_job_goes_round_as_bytes(self) -> None:
        self.assertEqual(Job.of_bytes(self.job), self.plan.job)

    def test_replies_cut_anywhere(self) -> None:
        """Whatever part of the replies came before the program died, the sets that are answered have their own results."""
        reader = lines.Reader.of(self.plan.job)
        read = [reader.read(number, line) for number, line in lines.lines_of(self.data, 2)][:6]
        sets = [it for it in read if isinstance(it, lines.Set)]
        self.assertEqual(sets, read)
        whole, _ = program.ran(PROGRAM, self.plan.job.before() + b"".join(it.script for it in sets))
        answers = replies.Answers.of(self.plan.job)
        wanted = list(answers.read(whole, sets))
        for length in range(self.plan.job.answered, len(whole)):
            found = list(answers.read(whole[:length], sets))
            self.assertEqual(found, wanted[: len(found)])
            self.assertLess(len(found), 6)

    def test_another_answer_to_the_model_is_seen(self) -> None:
        other = self.plan.job.to_bytes().replace(hashlib.sha256(b"ok\n" * 14).hexdigest().encode(), b"0" * 64)
        with self.assertRaisesRegex(RuntimeError, "the model is answered otherwise"):
            run.run_chunk(other, PROGRAM, 2, self.data)

    def test_texts_that_look_like_replies(self) -> None:
        model = "set A1 'x\nset B1 =[.A1]\n".encode()
        job = plan.planned(PROGRAM, plan.Asked("x", model, 1, ["A1"], ["B1"])).job.to_bytes()
        texts = ["ok", '"ok"', "refused E05", 'a"\nok', "lines 3", "\u2028", "x" * 30_000]
        data = "".join('n,"{}"\n'.format(it.replace('"', '""').replace("\n", " ")) for it in texts).encode()
        done = run.checked(run.key_of(job, 2, data), run.run_chunk(job, PROGRAM, 2, data))
        assert done
        wanted = "".join(f'n,"{it}"\n' if '"' in it else f"n,{it}\n" for it in (text.replace("\n", " ").replace('"', '""') for text in texts))
        self.assertEqual((done.results.decode(), done.failed), (wanted, 0))


class FolderTest(unittest.TestCase):
    def test_lines_a_chunk(self) -> None:
        for count, most in ((0, 10), (100, 10), (3200, 100), (100_000, 3125), (1_000_000, 4000), (100_000_000, 20_000)):
            self.assertEqual(folder.lines_a_chunk(count, 199_995, None), most)
        self.assertEqual(folder.lines_a_chunk(100_000, 1234, None), 1234)
        self.assertEqual(folder.lines_a_chunk(100_000, 199_995, 1), 1)

    def test_first_fields(self) -> None:
        for line, field in ((b"a,1\n", b"a"), (b'"a, b",1\n', b"a, b"), (b'"a",1\n', b"a"), (b'"a\n', b'"a'), (b",1\n", b"")):
            self.assertEqual(names.first_field(line), field)


class Fails:
    """An executor that fails as it is told: each call takes the next of these, and in the end all succeed."""

    def __init__(self, faults: list[BaseException]) -> None:
        self.faults = faults
        self.begun: list[int] = []

    def submit(self, function: object, *arguments: int) -> "Future[int]":
        self.begun.append(arguments[0])
        future: Future[int] = Future()
        if self.faults:
            future.set_exception(self.faults.pop(0))
        else:
            future.set_result(arguments[0])
        return future


class Engine(drive.Engine):
    def __init__(self, faults: list[BaseException]) -> None:
        super().__init__(Fails(faults))
        self.renewed = 0

    def width(self) -> int:
        return 2

    def renew(self) -> None:
        self.renewed += 1


class RunTest(unittest.TestCase):
    def ran(self, *faults: BaseException, count: int = 10) -> tuple[list[int], list[tuple[int, str]], Engine]:
        engine = Engine(list(faults))
        kept: list[int] = []
        given_up = drive.Run(engine, lambda it: (None, it), lambda it, _: kept.append(it)).all(range(count))
        return sorted(kept), given_up, engine

    def test_all_are_done_whatever_fails_at_times(self) -> None:
        kept, given_up, _ = self.ran(OSError("x"), RuntimeError("y"), ValueError("z"))
        self.assertEqual((kept, given_up), (list(range(10)), []))

    def test_a_broken_pool_is_begun_anew(self) -> None:
        kept, given_up, engine = self.ran(BrokenExecutor(), BrokenExecutor(), OSError())
        self.assertEqual((kept, given_up), (list(range(10)), []))
        self.assertGreaterEqual(engine.renewed, 1)

    def test_nothing_succeeds(self) -> None:
        with self.assertRaisesRegex(drive.Hopeless, "no"):
            self.ran(*[OSError("no")] * 100)
        with self.assertRaisesRegex(drive.Hopeless, "is memory short"):
            self.ran(*[BrokenExecutor()] * 100)

    def test_few_are_given_up(self) -> None:
        kept, given_up, _ = self.ran(*[OSError("no")] * 9, count=3)
        self.assertEqual((kept, sorted(given_up)), ([], [(0, "no"), (1, "no"), (2, "no")]))

    def test_nothing_to_do(self) -> None:
        self.assertEqual(self.ran(count=0)[0], [])


class NamesTest(unittest.TestCase):
    def told(self, *sets: bytes) -> list[str]:
        known = names.Names()
        for line in sets:
            known.add(line)
        return names.twice([b"name,B1\n", *sets], known.suspects())

    def test_names_are_told_apart(self) -> None:
        self.assertEqual(self.told(b"a,1\n", b"b,1\n", b'"a,b",1\n', b'"a,c",1\n'), [])
        self.assertEqual(self.told(b"a,1\n", b"b,2\n", b'"a",3\n'), ["'a' on lines 2 and 4"])

    def test_two_names_of_one_hash(self) -> None:
        self.assertEqual(names.twice([b"name,B1\n", b"a,1\n", b"b,2\n"], {hash(b"a"), hash(b"b")}), [])


if __name__ == "__main__":
    unittest.main()
