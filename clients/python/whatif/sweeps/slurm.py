"""Slurm: an array job, each of whose tasks does a part of the chunks."""

from __future__ import annotations

import os
import shlex
import subprocess
import sys
import time
from collections.abc import Callable
from pathlib import Path
from typing import Optional

from .folder import Folder
from .head import WrongSweep
from ..whole import write_whole

PARTS = 64
SLOWEST_POLL = 15.0


class Slurm:
    """An array job: each of its tasks does a part of the chunks, by this tool. The folder is the queue and takes the results."""

    def __init__(self, folder: Folder, parts: Optional[int], options: str) -> None:
        self.folder = folder
        self.note = folder.path / "slurm.job"
        self.parts = min(parts or PARTS, max(1, len(folder.chunks)))
        self.options = shlex.split(options)

    def running(self) -> Optional[str]:
        """The job that was begun before and goes on."""
        if not self.note.exists():
            return None
        job = self.note.read_text().strip()
        return job if self.is_there(job) else None

    def is_there(self, job: str) -> bool:
        asked = subprocess.run(["squeue", "--noheader", "--jobs", job, "--format=%i"], capture_output=True, text=True)
        if asked.returncode and "Invalid job id" not in asked.stderr:
            return True  # the controller doesn't answer: the job may be there
        return bool(asked.stdout.strip())

    def begin(self, lacking: list[int]) -> str:
        """Submits the parts that have a chunk among these."""
        parts = sorted({number % self.parts for number in lacking})
        tool = [sys.executable, "-m", "whatif.sweeps", "--resume", str(self.folder.path.resolve()), "--jobs", "1"]
        paths = os.pathsep.join(filter(None, [str(Path(__file__).parents[2]), os.environ.get("PYTHONPATH")]))
        settings = {"PYTHONPATH": paths, "WHATIF": os.environ.get("WHATIF") or self.folder.program}
        lines = [f"export {name}={shlex.quote(value)}" for name, value in settings.items()]
        script = "\n".join(["#!/bin/sh", *lines, f"exec {shlex.join(tool)} --part $SLURM_ARRAY_TASK_ID/{self.parts}", ""])
        logs = self.folder.path / "logs"
        logs.mkdir(exist_ok=True)
        wanted = [f"--array={','.join(map(str, parts))}", "--cpus-per-task=1", f"--output={logs.resolve()}/%A_%a.log"]
        asked = ["sbatch", "--parsable", "--job-name=whatif-sweep", *wanted]
        try:
            sent = subprocess.run([*asked, *self.options], input=script, capture_output=True, text=True)
        except OSError as error:
            raise WrongSweep(f"sbatch: {error.strerror}") from None
        if sent.returncode:
            raise WrongSweep(f"sbatch: {sent.stderr.strip()}")
        job = sent.stdout.strip().partition(";")[0]
        write_whole(self.note, job.encode())
        return job

    def wait(self, job: str, tell: Callable[[int], None]) -> None:
        """Until the job has ended; says how many chunks have a file meanwhile."""
        pause = 0.5
        while self.is_there(job):
            tell(self.folder.files())
            time.sleep(pause)
            pause = min(SLOWEST_POLL, 1.3 * pause)
        tell(self.folder.files())
