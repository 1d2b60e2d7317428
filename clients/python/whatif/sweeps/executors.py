"""Engines of others: any executor of concurrent.futures, and Dask."""

from __future__ import annotations

import importlib
import sys
import time
from collections.abc import Callable
from typing import Any, Optional

from . import chunk, local
from .drive import Engine
from .head import WrongSweep


class Given(Engine):
    """An executor that somebody else made and that stays open."""

    def __init__(self, executor: Any, jobs: Optional[int] = None) -> None:
        super().__init__(executor)
        self.jobs = jobs

    def width(self) -> int:
        """As many as were asked for, as the executor says, or as there are cores."""
        told = (self.jobs, getattr(self.executor, "_max_workers", None), getattr(self.executor, "num_workers", None))
        return next((it for it in told if isinstance(it, int) and it > 0), local.cores())


class Made(Given):
    """An executor of our own, and how to make another when it is broken."""

    def __init__(self, make: Callable[[], Any], jobs: Optional[int]) -> None:
        super().__init__(make(), jobs)
        self.make = make

    def renew(self) -> None:
        self.executor = self.make()

    def close(self) -> None:
        shutdown = getattr(self.executor, "shutdown", None)
        if shutdown:
            shutdown(wait=True)


def named(name: str, jobs: Optional[int]) -> Made:
    """The executor that `MODULE:CALLABLE` gives, such as mpi4py.futures:MPIPoolExecutor."""
    module, _, attribute = name.partition(":")
    try:
        return Made(getattr(importlib.import_module(module), attribute), jobs)
    except (ImportError, AttributeError, ValueError) as error:
        raise WrongSweep(f"--executor {name}: {error}; it is MODULE:CALLABLE, such as mpi4py.futures:MPIPoolExecutor") from None


class Clients(Given):
    """The executor of a Client of Dask, which stays open."""

    def __init__(self, client: Any) -> None:
        carry_along()
        super().__init__(client.get_executor(pure=False))
        self.client = client
        self.threads = 1
        self.asked = 0.0

    def width(self) -> int:
        """As many as the workers have threads now: they come and go, so this is asked each second."""
        if time.monotonic() - self.asked > 1:
            self.threads = max(1, sum(self.client.nthreads().values()))
            self.asked = time.monotonic()
        return self.threads


class Dask(Clients):
    """The workers of a scheduler. They need the program and Python, and nothing of this package: it goes along with the calls."""

    def __init__(self, address: Optional[str]) -> None:
        try:
            from distributed import Client
        except ImportError as error:
            raise WrongSweep(f"--engine dask: {error}; apt-get install python3-distributed, or pip install distributed") from None
        if not address:
            raise WrongSweep("--engine dask needs --scheduler ADDRESS, such as tcp://host:8786")
        try:
            client: Any = Client(address)
        except (OSError, ValueError) as error:
            raise WrongSweep(f"no Dask scheduler at {address}: {error}") from None
        super().__init__(client)

    def close(self) -> None:
        """Says good-bye. All results are here by then, so a scheduler that is slow to answer doesn't matter."""
        try:
            self.client.close(timeout=5)
        except OSError:
            pass


def carry_along() -> None:
    """Lets cloudpickle carry the modules of a chunk to workers that don't have them."""
    try:
        import cloudpickle
    except ImportError:
        return
    for name, module in list(sys.modules.items()):
        if name == chunk.__name__ or name.startswith(f"{chunk.__name__}."):
            cloudpickle.register_pickle_by_value(module)  # each by its name, as Dask looks for it


def of(executor: Any, jobs: Optional[int]) -> Engine:
    """An engine for an executor, or for a Client of Dask; without either, processes of this machine."""
    if executor is None:
        return local.of(jobs)
    client = executor if hasattr(executor, "get_executor") else getattr(executor, "_client", None)
    if client is not None:
        return Clients(client)
    carry_along()
    return Given(executor, jobs)
