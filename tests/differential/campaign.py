"""Many random scripts, on several processes: each given to the program and to the reference."""

import argparse
import time
from collections.abc import Iterator
from concurrent.futures import Future, ProcessPoolExecutor
from dataclasses import dataclass, field

from tests.differential.chains import chain_script
from tests.differential.compare import CHAIN_KEEPS, KEEPS, Answer, Difference, Subject, difference, programs
from tests.differential.generate import script
from tests.differential.shrink import shrunk
from tests.reference.whatif import commands_of, in_deep_thread
from tests.support.closing import Counts, close
from tests.support.program import PROGRAM

SCRIPTS_AT_ONCE = 20
MOST_SHRUNK = 2
MOST_PRINTED = 5
SHOWN = 4_000


@dataclass(frozen=True)
class Options:
    scripts: int
    seed: int
    lines: int
    seconds: float
    processes: int
    progress: bool
    chains: bool = False


@dataclass(frozen=True)
class Work:
    """Some scripts of a run."""

    seed: int
    numbers: range
    lines: int
    chains: bool

    def script(self, number: int) -> bytes:
        return chain_script(self.seed, number) if self.chains else script(self.seed, number, self.lines)


def subjects(chains: bool) -> dict[str, Subject]:
    """What is compared with the reference."""
    return programs(PROGRAM, CHAIN_KEEPS if chains else KEEPS)


@dataclass
class Result:
    """What came of some scripts."""

    scripts: int = 0
    commands: int = 0
    differences: list[tuple[int, Difference]] = field(default_factory=list)

    def add(self, other: "Result") -> None:
        self.scripts += other.scripts
        self.commands += other.commands
        self.differences += other.differences


def compared(work: Work) -> Result:
    """Compares the replies to some scripts, where a long chain of references may be followed."""
    result = Result()

    def compare_all() -> None:
        for number in work.numbers:
            made = work.script(number)
            found = difference(made, subjects(work.chains))
            result.scripts += 1
            result.commands += len(commands_of(made))
            if found:
                result.differences.append((number, found))

    in_deep_thread(compare_all)
    if result.scripts < len(work.numbers):
        raise RuntimeError(f"script {work.numbers[result.scripts]} of the seed {work.seed} wasn't compared")
    return result


def batches(options: Options) -> Iterator[Work]:
    for first in range(0, options.scripts, SCRIPTS_AT_ONCE):
        yield Work(options.seed, range(first, min(first + SCRIPTS_AT_ONCE, options.scripts)), options.lines, options.chains)


def smaller(found: Difference, chains: bool) -> Difference:
    """The same difference on a script that was made smaller."""
    subject = {found.subject: subjects(chains)[found.subject]}
    kept = [found]

    def shrink() -> None:
        made = shrunk(found.script, lambda script: difference(script, subject) is not None)
        kept.append(difference(made, subject) or found)

    in_deep_thread(shrink)
    return kept[-1]


def spelled(data: bytes) -> str:
    text = data.decode(errors="backslashreplace")
    return text if len(text) <= SHOWN else f"{text[:SHOWN]} .. ({len(data)} bytes)"


def told(answer: Answer) -> str:
    return spelled(answer.replies) + (f"({answer.fault})\n" if answer.fault else "")


def report(seed: int, number: int, found: Difference) -> str:
    """The script, with both outputs. Its bytes are given too, since not all of them can be seen."""
    return (
        f"---- script {number} of the seed {seed}: {found.subject} differs from the reference\n{spelled(found.script)}\n"
        f"---- as bytes: {found.script[:SHOWN]!r}\n---- the reference writes\n{told(found.wanted)}---- {found.subject} writes\n{told(found.written)}"
    )


def run(options: Options) -> int:
    print(f"seed {options.seed}", flush=True)
    total, began = Result(), time.monotonic()
    with ProcessPoolExecutor(options.processes) as pool:
        left = batches(options)
        running: list[Future[Result]] = []
        printed = 500
        while True:
            is_late = options.seconds and time.monotonic() - began > options.seconds
            while not is_late and len(running) < 2 * options.processes:
                work = next(left, None)
                if work is None:
                    break
                running.append(pool.submit(compared, work))
            if not running:
                break
            result = running.pop(0).result()
            for number, found in result.differences[: max(0, MOST_PRINTED - len(total.differences))]:
                told_of = smaller(found, options.chains) if len(total.differences) < MOST_SHRUNK else found
                print(report(options.seed, number, told_of), flush=True)
            total.add(result)
            if options.progress and total.scripts >= printed:
                print(f"{total.scripts} scripts, {total.commands} commands, {len(total.differences)} differences, seed {options.seed}", flush=True)
                printed += 500
    if total.differences:
        print(f"scripts that differ: {' '.join(str(number) for number, _ in total.differences[:100])}")
    print(f"{total.commands} commands")
    failed = len(total.differences)
    return close(Counts(total.scripts - failed, failed))


def options_of(words: list[str]) -> tuple[Options, bool]:
    parser = argparse.ArgumentParser(description="Compares the program with the reference on random scripts.")
    parser.add_argument("--scripts", type=int, default=2_000, help="how many scripts")
    parser.add_argument("--seed", type=int, default=None, help="what the scripts are drawn from; from the clock if none is given")
    parser.add_argument("--lines", type=int, default=40, help="about how many lines a script has")
    parser.add_argument("--seconds", type=float, default=0, help="ends after so many seconds")
    parser.add_argument("--processes", type=int, default=2, help="how many processes")
    parser.add_argument("--progress", action="store_true", help="writes a line after each 500 scripts")
    parser.add_argument("--chains", action="store_true", help="scripts of tables over chains of formulas, with other numbers of kept values")
    parser.add_argument("--census", action="store_true", help="counts what the scripts meet, by the reference alone")
    found = parser.parse_args(words)
    seed = time.time_ns() // 1_000_000 % 1_000_000_000 if found.seed is None else found.seed
    return Options(found.scripts, seed, found.lines, found.seconds, found.processes, found.progress, found.chains), found.census
