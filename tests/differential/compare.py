"""The replies of the program and of the reference to one script, and where they differ."""

import subprocess
import traceback
from collections.abc import Callable
from dataclasses import dataclass

from tests.reference.whatif import replies_to
from tests.support.program import run

SECONDS = 60
KEEPS: tuple[tuple[str, ...], ...] = (("--keep", "1"), ("--keep", "2"), ())
CHAIN_KEEPS: tuple[tuple[str, ...], ...] = (("--keep", "1"), ("--keep", "7"), ("--keep", "24"), ("--keep", "60"), ())
"""With the smaller ones the list of kept values is full in a script of `chains.py`, so that there are plans; with none it isn't."""


@dataclass(frozen=True)
class Answer:
    """What was written in reply to a script, and what else is to be said of the run."""

    replies: bytes
    fault: str = ""


Subject = Callable[[bytes], Answer]


@dataclass(frozen=True)
class Difference:
    """A script to which a subject's answer isn't the reference's."""

    script: bytes
    subject: str
    wanted: Answer
    written: Answer


def reference(script: bytes) -> Answer:
    try:
        return Answer(b"".join(replies_to(script)))
    except Exception:
        return Answer(b"", traceback.format_exc(limit=-5))


def program(path: str, words: tuple[str, ...]) -> Subject:
    """The program, called with these words."""

    def answer(script: bytes) -> Answer:
        try:
            ran = run(script, words, SECONDS, path)
        except subprocess.TimeoutExpired:
            return Answer(b"", f"not ended after {SECONDS} seconds")
        fault = f"status {ran.status}, on standard error {ran.told[:200]!r}" if ran.status or ran.told else ""
        return Answer(ran.written, fault)

    return answer


def programs(path: str, keeps: tuple[tuple[str, ...], ...] = KEEPS) -> dict[str, Subject]:
    """The program with each number of kept values."""
    return {" ".join(("whatif", *words)): program(path, words) for words in keeps}


def difference(script: bytes, subjects: dict[str, Subject]) -> Difference | None:
    """The first subject whose answer isn't the reference's, if there is one."""
    wanted = reference(script)
    for name, subject in subjects.items():
        written = subject(script)
        if written != wanted or wanted.fault:
            return Difference(script, name, wanted, written)
    return None
