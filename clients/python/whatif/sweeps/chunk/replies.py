"""From the program's replies to results."""

from __future__ import annotations

import re
from collections.abc import Iterator
from dataclasses import dataclass

from .job import Job, Show
from .lines import Failure, Set, name_of

END = re.compile(rb"(ok|refused [^\n]*)\n")
RECORD = re.compile(rb'"(?:[^"]|"")*"(?:,"(?:[^"]|"")*")*\r\n')
QUOTED = re.compile(rb'"((?:[^"]|"")*)"')
PLAIN = re.compile(rb'[^",\r\n]*')


@dataclass(frozen=True)
class Answers:
    """Reads the replies to sets."""

    job: Job
    plain_answer: re.Pattern[bytes]

    @staticmethod
    def of(job: Job) -> Answers:
        records = [(b",".join([rb'"([^",\r\n]*)"'] * it.columns) + rb"\r\n") * it.rows + rb"ok\n" for it in job.shows]
        return Answers(job, re.compile(rb"ok\n" * len(job.columns) + b"".join(records)))

    def read(self, written: bytes, sets: list[Set]) -> Iterator[bytes | Failure]:
        """The outputs of each set that is answered in full, or its failure."""
        at = self.job.answered
        for one in sets:
            found = self.plain_answer.match(written, at)
            if found:
                at = found.end()
                yield b",".join(found.groups())
                continue
            answer, at = self.slowly(written, at, one)
            if answer is None:
                return
            yield answer
        if at != len(written):
            raise RuntimeError("the program wrote more than was asked")

    def slowly(self, written: bytes, at: int, one: Set) -> tuple[bytes | Failure | None, int]:
        refusals: list[str] = []
        fields: list[bytes] = []
        shows = [Show("", 0, 0)] * len(self.job.columns) + list(self.job.shows)
        for question, show in enumerate(shows):
            for _ in range(0 if written.startswith(b"refused", at) else show.rows):
                record = RECORD.match(written, at)
                if not record:
                    return self.unfinished(written, at)
                fields += QUOTED.findall(record[0])
                at = record.end()
            end = END.match(written, at)
            if not end:
                return self.unfinished(written, at)
            at = end.end()
            if end[1] != b"ok":
                refusals.append(f"{end[1].decode()}: {one.script.decode().split(chr(10))[question][:80]}")
        if refusals:
            return Failure(one.line, name_of(one.labels), "; ".join(refusals)), at
        return b",".join(field if PLAIN.fullmatch(field) else b'"' + field + b'"' for field in fields), at

    def unfinished(self, written: bytes, at: int) -> tuple[None, int]:
        """A reply that has no end is the last one; anything else is a fault of this program or of that."""
        if len(written) - at > 1 << 20:
            raise RuntimeError(f"a reply that isn't understood: {written[at : at + 80]!r}")
        return None, at
