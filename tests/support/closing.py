"""Parts of tests/run: the line that closes each, and the tests of a folder as one of them."""

import re
import sys
import unittest
from collections.abc import Iterable, Iterator, Sequence
from dataclasses import dataclass
from multiprocessing import get_context
from pathlib import Path

from tests import ROOT

LINE = re.compile(r"([0-9]+) passed, ([0-9]+) failed(?:, ([0-9]+) skipped)?")


@dataclass(frozen=True)
class Counts:
    """How many tests passed, failed and were left out."""

    passed: int = 0
    failed: int = 0
    skipped: int = 0

    def __add__(self, other: "Counts") -> "Counts":
        return Counts(self.passed + other.passed, self.failed + other.failed, self.skipped + other.skipped)

    def __str__(self) -> str:
        return f"{self.passed} passed, {self.failed} failed" + (f", {self.skipped} skipped" if self.skipped else "")

    @classmethod
    def read(cls, line: str) -> "Counts | None":
        """The counts of a closing line, if it is one."""
        found = LINE.fullmatch(line)
        return cls(*(int(number or 0) for number in found.groups())) if found else None


def close(counts: Counts) -> int:
    """Writes the closing line, and gives the exit status. A part that has tried nothing has failed."""
    counts = counts if counts != Counts() else Counts(failed=1)
    print(counts)
    return 1 if counts.failed else 0


def close_with(faults: Sequence[str], tried: int) -> int:
    """Writes what is amiss, a line for each test that failed, and closes."""
    for fault in faults:
        print(fault)
    return close(Counts(max(0, tried - len(faults)), len(faults)))


@dataclass(frozen=True)
class Outcome:
    """What came of some tests: how many ran, the names of those that failed, and what is told of these and of those that were left out."""

    count: int
    failed: frozenset[str]
    faults: tuple[str, ...]
    skips: tuple[str, ...]

    @classmethod
    def of(cls, tests: unittest.TestSuite) -> "Outcome":
        """Runs tests. One of which a part fails has failed."""
        result = unittest.TestResult()
        tests.run(result)
        amiss = [*result.failures, *result.errors, *((test, "it was to fail, and passes") for test in result.unexpectedSuccesses)]
        names = frozenset(getattr(test, "test_case", test).id() for test, _ in amiss)
        faults = tuple(f"{test.id()}\n{text}" for test, text in amiss)
        return cls(result.testsRun, names, faults, tuple(f"skipped: {test}: {why}" for test, why in result.skipped))


def each_test(tests: Iterable[unittest.TestCase | unittest.TestSuite]) -> Iterator[unittest.TestCase]:
    for test in tests:
        if isinstance(test, unittest.TestSuite):
            yield from each_test(test)
        else:
            yield test


def outcomes(suite: unittest.TestSuite, side_by_side: int) -> list[Outcome]:
    """Runs tests, each in one of so many processes; where that is one, all in this one."""
    if side_by_side == 1:
        return [Outcome.of(suite)]
    global apart
    apart = list(each_test(suite))
    with get_context("fork").Pool(side_by_side) as pool:
        return pool.map(outcome_of, range(len(apart)), chunksize=1)


apart: list[unittest.TestCase] = []
"""The tests of which processes run one after another."""


def outcome_of(number: int) -> Outcome:
    return Outcome.of(unittest.TestSuite([apart[number]]))


def tests_in(folder: Path, pattern: str) -> unittest.TestSuite:
    """The tests in files of a folder, not of those below it: modules of a package from the top folder on, or where it is none, by themselves."""
    is_package = (folder / "__init__.py").is_file()
    if not is_package:
        sys.path.insert(0, str(folder))
    before = ".".join(folder.relative_to(ROOT).parts) + "." if is_package else ""
    return unittest.defaultTestLoader.loadTestsFromNames([before + path.stem for path in sorted(folder.glob(pattern))])


def run_tests(folder: Path, pattern: str = "test_*.py", side_by_side: int = 1) -> int:
    """Runs the tests in files of a folder, and gives the exit status."""
    found = outcomes(tests_in(folder, pattern), side_by_side)
    failed, skipped = sum(len(it.failed) for it in found), sum(len(it.skips) for it in found)
    for it in found:
        print("".join(f"{text}\n" for text in (*it.faults, *it.skips)), end="")
    return close(Counts(max(0, sum(it.count for it in found) - failed - skipped), failed, skipped))
