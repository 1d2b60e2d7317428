"""One process of the program for many sets, and what happens when it ends too early."""

from __future__ import annotations

import hashlib
import os
import shutil
import signal
import socket
import subprocess
from dataclasses import dataclass
from typing import BinaryIO, Optional

from .job import Job
from .lines import Failure, Set, name_of
from .replies import Answers

ATTEMPTS = 3
MOST_DEATHS = 10
STOPPED = (signal.SIGHUP, signal.SIGINT, signal.SIGTERM, signal.SIGXCPU)


@dataclass
class Died:
    """The program ended before it had answered all."""

    how: str
    signal: int


def ran(program: str, script: bytes) -> tuple[bytes, Optional[Died]]:
    """What the program writes for a script, and how it died, if it did. Both are files in memory: a pipe would wake the reader at each
    reply, which takes longer than to make it."""
    with memory_file() as given, memory_file() as written, memory_file() as said:
        given.write(script)
        given.seek(0)
        try:
            status = subprocess.run([program], stdin=given, stdout=written, stderr=said).returncode
        except OSError as error:
            raise RuntimeError(f"{program} can't be run: {error.strerror}") from None
        written.seek(0)
        said.seek(0)
        answer, complaint = written.read(), said.read().decode(errors="replace").strip()[-200:]
    if status == 0:
        return answer, None
    how = f"killed by signal {-status}" if status < 0 else f"exit status {status}"
    return answer, Died(f"{how}: {complaint}" if complaint else how, max(0, -status))


def memory_file() -> BinaryIO:
    """An empty file in memory."""
    return os.fdopen(os.memfd_create("whatif"), "w+b", buffering=0)


def asked(job: Job, program: str, sets: list[Set]) -> tuple[list[bytes | Failure], Optional[Died]]:
    """The answers of one process to sets, as far as it came, and how it died, if it did."""
    answer, died = ran(program, job.before() + b"".join(one.script for one in sets))
    if died and died.signal in STOPPED:
        raise RuntimeError(f"the program was stopped: {died.how}")
    before = answer[: job.answered]
    if hashlib.sha256(before).hexdigest() != job.answer_sha256:
        other = "the model is answered otherwise than when the sweep was planned"
        raise RuntimeError(f"the program ended before the first set: {died.how}" if died else other)
    answers = list(Answers.of(job).read(answer, sets))
    if len(answers) < len(sets) and not died:
        raise RuntimeError(f"the program answered {len(answers)} of {len(sets)} sets, and ended with status 0")
    return answers, died


def all_asked(job: Job, program: str, sets: list[Set]) -> list[bytes | Failure]:
    """The answers to all sets. A set that kills the program thrice, alone and after the model, has failed; the others go on."""
    answers: list[bytes | Failure] = []
    alone = deaths = failed = 0
    while len(answers) < len(sets):
        rest = sets[len(answers) :]
        new, died = asked(job, program, rest[:1] if alone else rest)
        answers += new
        if new or not died:
            alone = deaths = 0
            continue
        alone, deaths = 1, deaths + 1
        if deaths > ATTEMPTS:
            asked(job, program, [])
            failed += 1
            if failed > MOST_DEATHS:
                raise RuntimeError(f"the program ended at more than {MOST_DEATHS} sets: {died.how}")
            answers.append(Failure(rest[0].line, name_of(rest[0].labels), f"the program ends at this set: {died.how}"))
            alone = deaths = 0
    return answers


def sha256_of(path: str) -> str:
    """The SHA-256 of a file."""
    with open(path, "rb") as file:
        return hashlib.sha256(file.read()).hexdigest()


def checked_program(path: str, wanted: str) -> str:
    """The program on this machine: what WHATIF names, or the path where the sweep was planned. It must be the same file."""
    here = socket.gethostname()
    complaints = []
    for name in filter(None, (os.environ.get("WHATIF"), path)):
        found = shutil.which(name)
        if found and sha256_of(found) == wanted:
            return found
        complaints.append(f"{name} is another program than that of the sweep" if found else f"{name} isn't there")
    raise RuntimeError(f"on {here} {', and '.join(complaints)}; the environment variable WHATIF names the program")
