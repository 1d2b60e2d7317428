"""Engines of this machine: one chunk after the other, or a pool of processes."""

from __future__ import annotations

import ctypes
import multiprocessing
import os
import signal
from collections.abc import Callable
from concurrent.futures import Future, ProcessPoolExecutor
from typing import Any, Optional

from .drive import Engine

DIE_WITH_PARENT = 1


def cores() -> int:
    """How many cores this process may use."""
    return len(os.sched_getaffinity(0))


def of(jobs: Optional[int]) -> Engine:
    """So many processes, or as many as there are cores."""
    jobs = jobs or cores()
    return Engine(Inline()) if jobs == 1 else Pool(jobs)


class Inline:
    """Runs each call at once, in this process."""

    def submit(self, function: Callable[..., Any], /, *arguments: Any) -> Future[Any]:
        future: Future[Any] = Future()
        try:
            future.set_result(function(*arguments))
        except Exception as error:
            future.set_exception(error)
        return future


def begin_worker() -> None:
    """A worker has a process group of its own, so that Ctrl-C at the terminal lets it finish, and it ends with its parent."""
    os.setpgid(0, 0)
    signal.signal(signal.SIGTERM, signal.SIG_DFL)
    ctypes.CDLL(None).prctl(DIE_WITH_PARENT, signal.SIGKILL)


class Pool(Engine):
    """Processes of this machine."""

    def __init__(self, jobs: int) -> None:
        self.jobs = jobs
        self.others = set(multiprocessing.active_children())
        self.pool = self.opened()
        super().__init__(self.pool)

    def opened(self) -> ProcessPoolExecutor:
        return ProcessPoolExecutor(self.jobs, multiprocessing.get_context("fork"), begin_worker)

    def width(self) -> int:
        return self.jobs

    def renew(self) -> None:
        self.pool.shutdown(wait=False, cancel_futures=True)
        self.executor = self.pool = self.opened()

    def stop(self) -> None:
        """Kills the workers, and with each the program that it runs."""
        for worker in set(multiprocessing.active_children()) - self.others:
            try:
                if worker.pid:
                    os.killpg(worker.pid, signal.SIGKILL)
            except ProcessLookupError:
                pass  # it has ended, or hasn't begun

    def close(self) -> None:
        self.pool.shutdown(wait=True, cancel_futures=True)
