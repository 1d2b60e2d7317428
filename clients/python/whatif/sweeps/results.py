"""The end of a sweep: its results, its failures and what was swept, each written whole."""

from __future__ import annotations

import argparse
import json
import os
import sys
from collections.abc import Iterator
from contextlib import contextmanager
from pathlib import Path
from typing import IO, Any, Optional

from .folder import Folder
from ..whole import replacing, write_whole
from .words import ALL_RIGHT, SETS_FAILED, NotWhole, say

SHOWN = 5
UNASKED = Path("whatif-sweep.failures.csv")


def finish(words: argparse.Namespace, folder: Folder) -> int:
    """Writes the results, if all chunks are done; the exit status."""
    lacking = folder.lacking()
    if lacking:
        raise NotWhole(f"{len(lacking)} of {len(folder.chunks)} chunks lack, and nothing is written")
    failures = failures_place(words)
    try:
        said = gathered(words.output, failures, folder)
        if not said["failures"] and failures == UNASKED:
            failures.unlink()
    except OSError as error:
        raise NotWhole(f"the results can't be written: {error.strerror}") from None
    count, failed = said["results"], said["failures"]
    tell_failures(failures, failed)
    say(f"{count + failed:,} sets: {count:,} results, {failed:,} failed; sha256 of the results {said['sha256']}")
    return SETS_FAILED if failed else ALL_RIGHT


def failures_place(words: argparse.Namespace) -> Path:
    """Where the failures go: beside the results, or into the folder of the sweep, if there is one to stay."""
    if words.failures or words.output:
        place: Path = words.failures or words.output.with_suffix(".failures.csv")
    else:
        place = words.resume / "failures.csv" if words.resume else UNASKED
    return place


def gathered(output: Optional[Path], failures: Path, folder: Folder) -> dict[str, Any]:
    """Writes failures, what was swept, and results. A file appears when it is whole, and the results appear last."""
    with replacing(output) if output else to_standard_output() as results:
        with replacing(failures) as failed:
            said = folder.gather(results, failed)
        told = json.dumps(said, indent=1).encode() + b"\n"
        write_whole(folder.path / "results.json", told)
        if output:
            write_whole(output.with_name(output.name + ".json"), told)
        results.flush()
    return said


@contextmanager
def to_standard_output() -> Iterator[IO[bytes]]:
    """Standard output. What can't be written is no longer tried when Python ends."""
    try:
        yield sys.stdout.buffer
    except OSError:
        os.dup2(os.open(os.devnull, os.O_WRONLY), sys.stdout.fileno())
        raise


def tell_failures(path: Path, failed: int) -> None:
    if not failed:
        return
    with path.open(encoding="utf-8", errors="replace") as file:
        next(file)
        for _, line in zip(range(SHOWN), file):
            say(f"failed: {line.rstrip()}")
    if failed > SHOWN:
        say(f"failed: {failed - SHOWN:,} more")
    say(f"all that failed are in {path}")
