"""Planted faults of the program, each of which must be found, and none where nothing is planted."""

import shutil
import unittest
from collections.abc import Callable
from dataclasses import replace
from pathlib import Path

from tests.refused.points import Amiss, Tally, Trial, amiss, tried
from tests.refused.program import Program, Refusal, Run, compiled, compiler
from tests.refused.script import OUT_OF_MEMORY, replies
from tests.support.program import PROGRAM
from tests.support.scratch import ScratchTest

SCRIPT = b"""set A1 5
set A2 =[.A1]*2
changes
scenario dear A1 7
set A1 6
show A1:A2
changes
use dear
csv B1 1
x,"y
show A1:C2
frob
"""
REPLIES = b'''ok
ok
"A1","N","5"\r
"A2","N","10"\r
ok
ok
ok
"6"\r
"12"\r
ok
"A1","N","6"\r
"A2","N","12"\r
ok
ok
ok
"7","x","y\n"\r
"14","",""\r
ok
refused E02
'''
CRASHED = -6
STEP = 4
"""Of the requests that the script takes, each fourth is enough to meet each command."""

Fault = Callable[[Run], Run]
UNSEEN_WHERE_MEMORY_STAYS_SHORT = {"last_value_is_wrong", "change_list_is_empty", "formula_is_lost"}
"""Commands that write values take memory, so these are answered E01 there."""


def after_refusal(change: Callable[[list[bytes], int], list[bytes]]) -> Fault:
    """A fault that changes the replies of a run in which a command was answered E01."""

    def planted(run: Run) -> Run:
        if OUT_OF_MEMORY not in run.written:
            return run
        found = replies(run.written)
        return replace(run, written=b"".join(change(found, found.index(OUT_OF_MEMORY))))

    return planted


def no_more_memory(found: list[bytes], at: int) -> list[bytes]:
    return found[:at] + [OUT_OF_MEMORY] * (len(found) - at)


def next_reply_is_refused(found: list[bytes], at: int) -> list[bytes]:
    return found[: at + 1] + [b"refused E02\n"] * (at + 1 < len(found)) + found[at + 2 :]


def next_reply_is_lost(found: list[bytes], at: int) -> list[bytes]:
    return found[: at + 1] + found[at + 2 :]


def last_value_is_wrong(found: list[bytes], at: int) -> list[bytes]:
    return found[:-1] + [found[-1].replace(b'"12"', b'"10"').replace(b'"14"', b'"0"')]


def two_commands_are_refused(found: list[bytes], at: int) -> list[bytes]:
    return found[:at] + [OUT_OF_MEMORY] + found[at:]


def wrong_text(found: list[bytes], at: int) -> list[bytes]:
    return [reply.replace(b"E01", b"E1") for reply in found]


def change_list_is_empty(found: list[bytes], at: int) -> list[bytes]:
    return found[: at + 1] + [b"ok\n" if b',"N",' in reply else reply for reply in found[at + 1 :]]


def formula_is_lost(found: list[bytes], at: int) -> list[bytes]:
    return found[: at + 1] + [b'"A2",""\r\nok\n' if reply.startswith(b'"A2","=') else reply for reply in found[at + 1 :]]


FAULTS: dict[str, Fault] = {change.__name__: after_refusal(change) for change in (
    no_more_memory, next_reply_is_refused, next_reply_is_lost, last_value_is_wrong, two_commands_are_refused, wrong_text, change_list_is_empty,
    formula_is_lost)} | {
    "crashes": lambda run: replace(run, status=CRASHED) if OUT_OF_MEMORY in run.written else run,
    "ends_with_another_status": lambda run: replace(run, status=3) if run.status == 5 else run,
    "ends_well_without_a_reply": lambda run: replace(run, status=0) if run.status == 5 else run,
    "ends_for_memory_after_replies": lambda run: replace(run, status=5, told=b"whatif: out of memory") if OUT_OF_MEMORY in run.written else run,
    "writes_before_it_ends": lambda run: replace(run, written=b"ok\n") if run.status == 5 else run,
    "tells_nothing": lambda run: replace(run, told=b"") if run.status == 5 else run,
    "refuses_without_a_cause": lambda run: replace(run, written=run.written.replace(b"ok\n", OUT_OF_MEMORY, 1)),
    "refuses_a_bad_command_for_memory": lambda run: replace(run, written=run.written.replace(b"refused E02\n", OUT_OF_MEMORY)),
    "refuses_no_request": lambda run: replace(run, refused=0),
}


class Planted(Program):
    """The program with a fault."""

    def __init__(self, allocator: Path, fault: Fault, leaks: Path | None = None) -> None:
        super().__init__(PROGRAM, allocator, leaks)
        self.fault = fault

    def run(self, script: bytes, words: tuple[str, ...], refusal: Refusal | None = None) -> Run:
        run = super().run(script, words, refusal)
        return self.fault(run) if refusal else run


class Refused(Program):
    """The program that does what it refuses: the replies are those where nothing is refused, but for the one."""

    def run(self, script: bytes, words: tuple[str, ...], refusal: Refusal | None = None) -> Run:
        run = super().run(script, words, refusal)
        if not refusal or OUT_OF_MEMORY not in run.written:
            return run
        found, served = replies(run.written), replies(super().run(script, words).written)
        done = [OUT_OF_MEMORY if reply == OUT_OF_MEMORY else other for reply, other in zip(found, served)]
        return replace(run, written=b"".join(done))


@unittest.skipUnless(compiler(), "no C compiler")
class Faults(ScratchTest):
    def compiled(self, name: str, *flags: str) -> Path:
        made = compiled(name, self.folder, flags)
        assert made, f"{name}.c can't be compiled"
        return made

    def requests(self, program: Program) -> tuple[Trial, range]:
        """A trial of the script by a program, and some of the requests that the script takes."""
        trial = Trial(Program(PROGRAM, program.allocator), (), SCRIPT, REPLIES)
        requests = range(1, trial.requests() + 1, STEP)
        trial.program = program
        return trial, requests

    def tally(self, program: Program) -> Tally:
        return tried(*self.requests(program))

    def test_nothing_is_found_where_nothing_is_planted(self) -> None:
        tally = self.tally(Program(PROGRAM, self.compiled("refuse")))
        self.assertEqual(tally.faults, [])
        self.assertGreater(tally.out_of_memory, 0)
        self.assertGreater(tally.silent, 0)
        self.assertEqual(tally.tried, tally.out_of_memory + tally.silent + tally.unfelt)

    def test_each_planted_fault_is_found(self) -> None:
        allocator = self.compiled("refuse")
        for name, fault in FAULTS.items():
            with self.subTest(fault=name):
                self.assertNotEqual(self.tally(Planted(allocator, fault)).faults, [])

    def test_a_command_that_is_done_and_refused_is_found(self) -> None:
        self.assertNotEqual(self.tally(Refused(PROGRAM, self.compiled("refuse"))).faults, [])

    def test_planted_faults_are_found_where_all_later_requests_are_refused(self) -> None:
        allocator = self.compiled("refuse")
        found = {name for name, fault in FAULTS.items() if self.lasting_faults(Planted(allocator, fault))}
        self.assertEqual(found, set(FAULTS) - UNSEEN_WHERE_MEMORY_STAYS_SHORT)

    def lasting_faults(self, program: Program) -> list[str]:
        """What is found where all requests from one on are refused, for each of some requests."""
        trial, requests = self.requests(program)
        return [fault for request in requests if (fault := amiss(trial.refused_from, Refusal(request, is_lasting=True)))]

    def test_wrong_replies_of_the_script_are_found(self) -> None:
        program = Program(PROGRAM, self.compiled("refuse"))
        with self.assertRaises(Amiss):
            Trial(program, (), SCRIPT, REPLIES.replace(b'"14"', b'"15"')).requests()
        with self.assertRaises(Amiss):
            Trial(program, (), SCRIPT, REPLIES + b"ok\n")
        with self.assertRaises(Amiss):
            Trial(Planted(program.allocator, FAULTS["refuses_without_a_cause"]), (), SCRIPT, REPLIES).requests()

    @unittest.skipUnless(shutil.which("valgrind"), "no valgrind")
    def test_valgrind_finds_leaks_and_bad_reads(self) -> None:
        leaks = compiled("leaks", self.folder)
        if not leaks:
            self.skipTest("valgrind's header for C isn't there")
        for flag, finds in (("-DPLANT_NOTHING", (False, False)), ("-DPLANT_LEAK", (False, True)), ("-DPLANT_BAD_READ", (True, True))):
            program = Program(PROGRAM, self.compiled("refuse", flag), leaks)
            for request, is_found in zip((1, 60), finds):
                run = program.run(SCRIPT, (), Refusal(request))
                with self.subTest(flag=flag, request=request):
                    self.assertEqual(bool(program.watched(SCRIPT, (), Refusal(request), run)), is_found)


if __name__ == "__main__":
    unittest.main()
