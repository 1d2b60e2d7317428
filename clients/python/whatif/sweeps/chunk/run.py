"""The sets of a chunk, run. What it gives checks itself, wherever it travels: the SHA-256 of what follows, a line of JSON, results, failures."""

from __future__ import annotations

import hashlib
import json
import socket
import time
from dataclasses import dataclass
from typing import Optional

from .job import Job
from .lines import Failure, Reader, Set, line_of, lines_of
from .program import all_asked, checked_program


def key_of(job: bytes, first: int, data: bytes) -> str:
    """What a chunk's results and failures depend on, as one number."""
    return hashlib.sha256(hashlib.sha256(job).digest() + b"%d\n" % first + hashlib.sha256(data).digest()).hexdigest()


def run_chunk(job: bytes, program: str, first: int, data: bytes) -> bytes:
    """Runs the sets on these lines, of which the first has this number: results and failures, behind a checksum and what they are."""
    began = time.monotonic()
    what = Job.of_bytes(job)
    path = checked_program(program, what.program_sha256)
    reader = Reader.of(what)
    read = [reader.read(number, line) for number, line in lines_of(data, first)]
    good = [one for one in read if isinstance(one, Set)]
    answers = iter(all_asked(what, path, good) if good else [])
    rows: list[bytes] = []
    failures: list[Failure] = []
    for one in read:
        answer = one if isinstance(one, Failure) else next(answers)
        if isinstance(answer, Failure):
            failures.append(answer)
        elif isinstance(one, Set):
            rows.append(one.labels + b"," + answer if what.labels else answer or b'""')
    results = b"".join(row + b"\n" for row in rows)
    failed = b"".join(line_of([str(it.line), it.name, it.reason]) + b"\n" for it in failures)
    says = {
        "key": key_of(job, first, data),
        "results": len(rows),
        "failures": len(failures),
        "bytes": [len(results), len(failed)],
        "host": socket.gethostname(),
        "seconds": round(time.monotonic() - began, 3),
    }
    body = json.dumps(says).encode() + b"\n" + results + failed
    return hashlib.sha256(body).hexdigest().encode() + b"\n" + body


@dataclass
class Done:
    """What `run_chunk` gave, checked."""

    results: bytes
    failures: bytes
    count: int
    failed: int


def checked(key: str, given: bytes) -> Optional[Done]:
    """What a chunk of this key gave, or None if the bytes are of another, cut or damaged."""
    digest, _, body = given.partition(b"\n")
    if hashlib.sha256(body).hexdigest().encode() != digest:
        return None
    head, _, rest = body.partition(b"\n")
    says = json.loads(head)
    if says["key"] != key:
        return None
    results = says["bytes"][0]
    return Done(rest[:results], rest[results:], says["results"], says["failures"])
