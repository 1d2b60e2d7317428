"""One refused request after another in one script, and what is amiss in each run."""

import os
from collections.abc import Callable
from dataclasses import dataclass, field

from tests.refused.program import MEMORY_STATUS, Program, Refusal, Run
from tests.refused.script import OUT_OF_MEMORY, BadReplies, Command, commands, inspection, joined, may_lack_memory, replies

CHANGES = Command(b"changes\n")
MEMORY_TEXT = b"whatif: out of memory"
SHOWN = 200


class Amiss(Exception):
    """A run isn't as it must be."""


@dataclass
class Tally:
    """What was tried, and what was amiss."""

    tried: int = 0
    """How many requests were refused alone, as many with the next one, and as many with all later ones."""
    out_of_memory: int = 0
    """Of the runs with two refused requests: those with a command that was answered E01."""
    silent: int = 0
    """Those that ended with the status for memory, and nothing written."""
    unfelt: int = 0
    """Those in which the refusal changed no reply."""
    runs: int = 0
    """How many runs of the program all that took."""
    faults: list[str] = field(default_factory=list)

    def add(self, other: "Tally") -> None:
        self.tried += other.tried
        self.out_of_memory += other.out_of_memory
        self.silent += other.silent
        self.unfelt += other.unfelt
        self.runs += other.runs
        self.faults += other.faults


def same(what: str, written: bytes, wanted: bytes) -> None:
    if written != wanted:
        at = len(os.path.commonprefix([written, wanted]))
        raise Amiss(f"{what}: from byte {at + 1} on {wanted[at : at + SHOWN]!r} is wanted, written was {written[at : at + SHOWN]!r}")


def is_silent(run: Run) -> bool:
    """Whether a run ran out of memory before anything was read. It has written nothing then."""
    if run.status == 0:
        return False
    if run.status != MEMORY_STATUS or run.written or not run.told.startswith(MEMORY_TEXT):
        raise Amiss(f"status {run.status}, written {run.written[:SHOWN]!r}, told {run.told[:SHOWN]!r}")
    return True


def ended_well(run: Run) -> bytes:
    """What a run has written that ended well."""
    if run.status or run.told:
        raise Amiss(f"status {run.status}, told {run.told[:SHOWN]!r}")
    return run.written


def answers(written: bytes) -> list[bytes]:
    """The replies that were written."""
    try:
        return replies(written)
    except BadReplies as fault:
        raise Amiss(str(fault)) from None


@dataclass(frozen=True)
class Sequel:
    """A script that goes on in another way after the command that is refused, and what must be written for it."""

    what: str
    script: bytes
    wanted: bytes


class Trial:
    """A script on a program that is called with some words, and what it writes where nothing is refused."""

    def __init__(self, program: Program, words: tuple[str, ...], script: bytes, wanted: bytes):
        self.program = program
        self.words = words
        self.commands = commands(script)
        self.script = joined(self.commands)
        self.wanted = answers(wanted)
        if len(self.wanted) != len(self.commands):
            raise Amiss(f"{len(self.commands)} commands, and {len(self.wanted)} replies")
        self.places = {len(b"".join(self.wanted[:at])): at for at in range(len(self.wanted))}
        self.asked = inspection(self.commands)
        self.runs = 0
        self.sequels: dict[int, list[Sequel]] = {}
        self.right: set[bytes] = set()
        """What was written where requests were refused from one on, and was found right."""

    def run(self, script: bytes, refusal: Refusal | None) -> Run:
        self.runs += 1
        return self.program.run(script, self.words, refusal)

    def unrefused(self, parts: list[Command]) -> list[bytes]:
        """The replies to some commands where nothing is refused."""
        found = answers(ended_well(self.run(joined(parts), None)))
        if len(found) != len(parts) or OUT_OF_MEMORY in found:
            raise Amiss(f"{len(parts)} commands, and where nothing is refused {len(found)} replies, or one of them E01")
        return found

    def requests(self) -> int:
        """How many requests the script takes where none is refused; so the next one is never met."""
        run = self.run(self.script, None)
        same("where nothing is refused", ended_well(run), b"".join(self.wanted))
        beyond = self.run(self.script, Refusal(run.requests + 1, is_lasting=True))
        same("where no request is left to refuse", ended_well(beyond), b"".join(self.wanted))
        if (beyond.requests, beyond.refused) != (run.requests, 0):
            raise Amiss(f"{run.requests} requests, and then {beyond.requests}, {beyond.refused} of them refused")
        return run.requests

    def expect_lack(self, places: list[int]) -> None:
        """E01 may stand in place of these replies of the script."""
        for at in places:
            command, reply = self.commands[at], self.wanted[at]
            if not may_lack_memory(command, reply, is_first=at == places[0]):
                raise Amiss(f"E01 in place of {reply!r} to {command.text[:SHOWN]!r}")

    def refused_some(self, refusal: Refusal, tally: Tally) -> None:
        """Refuses a request alone, or with the next one: one command at most is answered E01, and that is as if it hadn't been given. A command
        is done once more where memory ran out, so no reply tells of a request that is refused alone."""
        run = self.run(self.script, refusal)
        if not 1 <= run.refused <= refusal.count:
            raise Amiss(f"{run.refused} requests were refused in place of {refusal.count}; status {run.status}")
        if is_silent(run):
            tally.silent += 1
            return
        place = ended_well(run).find(OUT_OF_MEMORY)
        if place < 0:
            same("no command is answered E01", run.written, b"".join(self.wanted))
            tally.unfelt += 1
            return
        if place not in self.places:
            raise Amiss(f"E01 isn't where a reply of the script begins, but at byte {place + 1}: {run.written[:SHOWN]!r}")
        at = self.places[place]
        if refusal.count == 1:
            raise Amiss(f"{self.commands[at].text[:SHOWN]!r} isn't done once more")
        self.expect_lack([at])
        tally.out_of_memory += 1
        if at not in self.sequels:
            self.sequels[at] = self.sequels_of(at)
        first, *others = self.sequels[at]
        same(first.what, run.written, first.wanted)
        for sequel in others:
            same(sequel.what, ended_well(self.run(sequel.script, refusal)), sequel.wanted)

    def sequels_of(self, at: int) -> list[Sequel]:
        """How the script may go on after one of its commands was answered E01; first, as it stands."""
        before, again, after = self.commands[:at], self.commands[at:], self.commands[at + 1 :]
        found = [self.sequel("the replies before and after E01", at, after, self.unrefused(before + after))]
        if not self.commands[at].is_cut:
            asked = self.unrefused(before + self.asked + again)
            same("the script with questions in it", b"".join(asked[:at] + asked[at + len(self.asked) :]), b"".join(self.wanted))
            found += [
                self.sequel("the command again, and what follows", at, again, self.wanted),
                self.sequel("show and formula of all cells, the command again, and what follows", at, self.asked + again, asked),
                self.sequel("changes in place of the command", at, [CHANGES], self.unrefused([*before, CHANGES])),
            ]
        return found

    def sequel(self, what: str, at: int, parts: list[Command], wanted: list[bytes]) -> Sequel:
        return Sequel(what, joined(self.commands[: at + 1] + parts), b"".join([*wanted[:at], OUT_OF_MEMORY, *wanted[at:]]))

    def refused_from(self, refusal: Refusal) -> None:
        """Refuses all requests from one on: each command is answered, by E01 or as if those so answered hadn't been given."""
        run = self.run(self.script, refusal)
        if run.refused == 0:
            raise Amiss(f"no request was refused; status {run.status}")
        if is_silent(run) or ended_well(run) in self.right:
            return
        found = answers(run.written)
        if len(found) != len(self.commands):
            raise Amiss(f"{len(self.commands)} commands, and {len(found)} replies")
        self.expect_lack([at for at, reply in enumerate(found) if reply == OUT_OF_MEMORY])
        served = [(command, reply) for command, reply in zip(self.commands, found) if reply != OUT_OF_MEMORY]
        wanted = self.unrefused([command for command, _ in served])
        same("the commands that aren't answered E01", b"".join(reply for _, reply in served), b"".join(wanted))
        self.right.add(run.written)


def amiss(look: Callable[[Refusal], None], refusal: Refusal) -> str:
    """What is amiss with a refusal, or nothing."""
    try:
        look(refusal)
    except (Amiss, OSError) as fault:
        return f"{refusal}: {fault}"
    return ""


def tried(trial: Trial, requests: range) -> Tally:
    """Refuses each of some requests of a script, alone, with the next one, and with all later ones."""
    tally = Tally(tried=len(requests))
    for request in requests:
        found = [
            amiss(lambda refusal: trial.refused_some(refusal, Tally()), Refusal(request)),
            amiss(lambda refusal: trial.refused_some(refusal, tally), Refusal(request, count=2)),
            amiss(trial.refused_from, Refusal(request, is_lasting=True)),
        ]
        tally.faults += [fault for fault in found if fault]
    tally.runs = trial.runs
    return tally
