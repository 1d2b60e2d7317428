"""The folder of a sweep: its model and sets, and what is done. A chunk is done if its file is there and its checksum holds.

    sweep.json      what is swept; it is written last, so a folder with it is whole
    job.json        what all chunks have in common, the model among it
    sets.csv        the sets
    done/000017     results and failures of a chunk, put there by a renaming
"""

from __future__ import annotations

import hashlib
import json
import os
from collections.abc import Iterable
from dataclasses import dataclass
from pathlib import Path
from typing import IO, Any, BinaryIO, Optional

from .chunk.lines import line_of
from .chunk.run import Done, checked, key_of
from .copying import copied_once, starts_of
from .head import Head, WrongSweep
from .plan import Plan
from ..whole import write_whole

VERSION = 1
LARGEST_CHUNK = 4000
SMALLEST_CHUNK = 10
LEAST_CHUNKS = 32
MOST_CHUNKS = 5000
FAILURES_HEAD = b"line,name,reason\n"


@dataclass(frozen=True, order=True)
class Chunk:
    """Some lines of the sets: the chunk's number, the number of its first line, and where it is in the file."""

    number: int
    first: int
    begin: int
    end: int


def lines_a_chunk(count: int, most: int, wanted: Optional[int]) -> int:
    """How many lines a chunk has: as many as are wanted, or such that there are some chunks for each core, and not too many in all."""
    size = wanted or max(SMALLEST_CHUNK, min(max(LARGEST_CHUNK, count // MOST_CHUNKS), count // LEAST_CHUNKS))
    return min(size, most)


class Folder:
    """A sweep that is planned."""

    def __init__(self, path: Path) -> None:
        self.path = path
        try:
            says: dict[str, Any] = json.loads((path / "sweep.json").read_bytes())
        except OSError as error:
            raise WrongSweep(f"{path}: no sweep is there ({error.strerror}); name the model and give the sets to begin one") from None
        if says["version"] != VERSION:
            raise WrongSweep(f"{path} was made by another version of this tool")
        self.says = says
        self.job = (path / "job.json").read_bytes()
        self.program: str = says["program"]["path"]
        self.count: int = says["sets"]["count"]
        self.head: bytes = says["head"].encode()
        starts = [*says["starts"], says["sets"]["end"]]
        size = says["lines"]
        self.chunks = [Chunk(number, 2 + number * size, *ends) for number, ends in enumerate(zip(starts, starts[1:]))]

    @staticmethod
    def is_there(path: Path) -> bool:
        return (path / "sweep.json").exists()

    @staticmethod
    def made(path: Path, plan: Plan, head: Head, sets: BinaryIO, is_named: bool, lines: Optional[int]) -> Folder:
        """Makes the folder: the sets are copied into it, so that they can't change under it, and cut into chunks."""
        (path / "done").mkdir(parents=True, exist_ok=True)
        found = copied_once(head.line, sets, path / "sets.csv", is_named)
        size = lines_a_chunk(found.count, plan.most_sets(), lines)
        if size < 1:
            raise WrongSweep("a process reads a million lines at most, and one set of this model takes more; or --chunk isn't positive")
        with (path / "sets.csv").open("rb") as file:
            starts = starts_of(file, size)
        write_whole(path / "job.json", plan.job.to_bytes())
        says = {
            "version": VERSION,
            "model": {"name": plan.name, "sha256": hashlib.sha256(plan.job.model.encode()).hexdigest()},
            "sets": {"count": found.count, "sha256": found.sha256, "end": found.end},
            "program": {"path": plan.program, "sha256": plan.job.program_sha256},
            "head": line_of([*head.labels, *plan.outputs]).decode(),
            "lines": size,
            "starts": starts,
        }
        write_whole(path / "sweep.json", json.dumps(says, indent=1).encode())
        return Folder(path)

    def differs(self, plan: Plan, head: Head, sets: BinaryIO) -> Optional[str]:
        """What of a sweep that is asked for isn't as in the folder."""
        if self.says["program"]["sha256"] != plan.job.program_sha256:
            return "the program"
        if plan.job.to_bytes() != self.job:
            return "the model, the outputs, the scenario or the head of the sets"
        digest = hashlib.sha256(head.line)
        for block in iter(lambda: sets.read(1 << 20), b""):
            digest.update(block)
        return "the sets" if digest.hexdigest() != self.says["sets"]["sha256"] else None

    # Chunks

    def data(self, chunk: Chunk) -> bytes:
        with (self.path / "sets.csv").open("rb") as file:
            file.seek(chunk.begin)
            return file.read(chunk.end - chunk.begin)

    def place(self, chunk: Chunk) -> Path:
        return self.path / "done" / f"{chunk.number:06}"

    def first_line(self) -> bytes:
        with (self.path / "sets.csv").open("rb") as file:
            return file.readline()

    def done(self, chunk: Chunk, data: Optional[bytes] = None) -> Optional[Done]:
        """What the chunk gave for its sets, or None if it isn't there or isn't right."""
        try:
            given = self.place(chunk).read_bytes()
        except FileNotFoundError:
            return None
        return checked(key_of(self.job, chunk.first, self.data(chunk) if data is None else data), given)

    def lacking(self, chunks: Optional[Iterable[Chunk]] = None, again: bool = False) -> list[Chunk]:
        """The chunks that aren't done, of these or of all; also those with failures, if they are to be tried again. All checksums are
        tried, and that of the sets if all chunks are looked at."""
        lack = []
        sets = hashlib.sha256(self.first_line())
        for chunk in self.chunks if chunks is None else chunks:
            data = self.data(chunk)
            sets.update(data)
            done = self.done(chunk, data)
            if done is None or (again and done.failed):
                lack.append(chunk)
        if chunks is None and sets.hexdigest() != self.says["sets"]["sha256"]:
            raise RuntimeError(f"the sets in {self.path} were changed; begin in another folder")
        return lack

    def keep(self, chunk: Chunk, given: bytes) -> Done:
        """Puts what a chunk gave into the folder, unless it came damaged."""
        done = checked(key_of(self.job, chunk.first, self.data(chunk)), given)
        if done is None:
            raise RuntimeError("the results came damaged")
        write_whole(self.place(chunk), given, durable=False)
        return done

    def files(self) -> int:
        """How many chunks have a file, right or not; quickly."""
        with os.scandir(self.path / "done") as entries:
            return sum(not it.name.startswith(".") for it in entries)

    # The end

    def gather(self, results: IO[bytes], failures: IO[bytes]) -> dict[str, Any]:
        """Writes all results and all failures in the order of the sets, and says what they are."""
        digest = hashlib.sha256(self.head + b"\n")
        count = failed = 0
        results.write(self.head + b"\n")
        failures.write(FAILURES_HEAD)
        for chunk in self.chunks:
            done = self.done(chunk)
            if done is None:
                raise RuntimeError(f"chunk {chunk.number} was done, and isn't any more")
            digest.update(done.results)
            results.write(done.results)
            failures.write(done.failures)
            count, failed = count + done.count, failed + done.failed
        if count + failed != self.count:
            raise RuntimeError(f"{count} results and {failed} failures of {self.count} sets")
        kept = {name: self.says[name] for name in ("model", "sets", "program")}
        return {"results": count, "failures": failed, "sha256": digest.hexdigest(), **kept}
