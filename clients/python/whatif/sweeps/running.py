"""The chunks that lack, run on the engine that was asked for."""

from __future__ import annotations

import argparse
from typing import Any

from . import executors, local
from .chunk.run import run_chunk
from .drive import Hopeless, Run
from .folder import Chunk, Folder
from .progress import Progress
from .slurm import Slurm
from .words import NotWhole, say

SHOWN = 5


def run(words: argparse.Namespace, folder: Folder, lacking: list[Chunk]) -> None:
    """Does the chunks that lack."""
    done = folder.count * (len(folder.chunks) - len(lacking)) // max(1, len(folder.chunks))
    progress = Progress(folder.count, done)
    try:
        if words.engine == "slurm" and not words.part:
            run_slurm(words, folder, lacking, progress)
        else:
            run_here(words, folder, lacking, progress)
    finally:
        progress.close()


def run_here(words: argparse.Namespace, folder: Folder, lacking: list[Chunk], progress: Progress) -> None:
    """Gives the chunks to an executor, and keeps what comes."""
    engine = engine_of(words)

    def keep(chunk: Chunk, given: bytes) -> None:
        done = folder.keep(chunk, given)
        progress.add(done.count + done.failed, done.failed)

    def call(chunk: Chunk) -> tuple[Any, ...]:
        return run_chunk, folder.job, folder.program, chunk.first, folder.data(chunk)

    try:
        given_up = Run(engine, call, keep, say).all(lacking)
    except Hopeless as error:
        raise NotWhole(f"no chunk succeeds: {error}") from None
    finally:
        engine.close()
    for chunk, reason in sorted(given_up)[:SHOWN]:
        say(f"chunk {chunk.number} (from line {chunk.first}): {reason}")


def engine_of(words: argparse.Namespace) -> Any:
    if words.executor:
        return executors.named(words.executor, words.jobs)
    if words.engine != "dask":
        return local.of(words.jobs)
    engine = executors.Dask(words.scheduler)
    if not engine.client.nthreads():
        say(f"the scheduler at {words.scheduler} has no workers yet; this waits for them")
    return engine


def run_slurm(words: argparse.Namespace, folder: Folder, lacking: list[Chunk], progress: Progress) -> None:
    """Submits the parts that lack, or comes back to the job that does them, and waits for its end."""
    slurm = Slurm(folder, words.parts, words.sbatch)
    job = slurm.running()
    if job:
        say(f"job {job} goes on")
    else:
        for chunk in lacking:
            folder.place(chunk).unlink(missing_ok=True)
        job = slurm.begin([chunk.number for chunk in lacking])
        say(f"job {job} is submitted; its logs are in {folder.path}/logs")
    sets = folder.count / max(1, len(folder.chunks))
    try:
        slurm.wait(job, lambda files: progress.add(round(files * sets) - progress.done))
    except KeyboardInterrupt:
        say(f"job {job} goes on without this program; scancel {job} ends it")
        raise
