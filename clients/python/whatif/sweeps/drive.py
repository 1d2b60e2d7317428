"""Running chunks on an engine: any object with the `submit` of concurrent.futures."""

from __future__ import annotations

from collections import Counter, deque
from collections.abc import Callable, Iterable, Iterator
from concurrent.futures import FIRST_COMPLETED, BrokenExecutor, CancelledError, Future, wait
from dataclasses import dataclass, field
from typing import Any, Protocol

ATTEMPTS = 3
BREAKS = 5
FAILED_AT_FIRST = 4


class Executor(Protocol):
    """What runs a function somewhere: concurrent.futures, loky, mpi4py.futures, and Dask's `Client.get_executor()` have it."""

    def submit(self, function: Callable[..., Any], /, *arguments: Any) -> Future[Any]: ...


class Engine:
    """An executor, how many calls it runs at once, and what to do when it is broken or has to stop."""

    def __init__(self, executor: Executor) -> None:
        self.executor = executor

    def width(self) -> int:
        return 1

    def renew(self) -> None:
        """Begins anew after a worker of a pool was killed."""
        raise RuntimeError("the executor is broken: one of its workers was killed")

    def stop(self) -> None:
        """Ends at once what is running."""

    def close(self) -> None:
        """Gives back what the engine holds."""


class Hopeless(Exception):
    """Nothing succeeds: it isn't the sets."""


@dataclass
class Run:
    """The way of some items through an engine. An item that fails is tried three times in all, and then it is given up; the others go
    on. When a worker is killed, what was on its way is begun again."""

    engine: Engine
    call: Callable[[Any], tuple[Any, ...]]
    keep: Callable[[Any, Any], object]
    tell: Callable[[str], None] = lambda text: None
    running: dict[Future[Any], tuple[Any, int]] = field(default_factory=dict)
    again: deque[tuple[Any, int]] = field(default_factory=deque)
    given_up: list[tuple[Any, str]] = field(default_factory=list)
    broken: Counter[Any] = field(default_factory=Counter)
    finished: int = 0
    breaks: int = 0

    def all(self, items: Iterable[Any]) -> list[tuple[Any, str]]:
        """The items that were given up, each with its reason."""
        left = iter(items)
        try:
            while True:
                self.fill(left)
                if not self.running:
                    return self.given_up
                done, _ = wait(self.running, timeout=1, return_when=FIRST_COMPLETED)
                for future in done:
                    if future in self.running:
                        self.take(future, *self.running.pop(future))
        except KeyboardInterrupt:
            self.let_finish()
            raise
        except BaseException:
            for future in self.running:
                future.cancel()
            raise

    def fill(self, left: Iterator[Any]) -> None:
        """Keeps twice as many on their way as run at once, so that none waits for this process."""
        while len(self.running) < 2 * self.engine.width():
            item, attempt = self.again.popleft() if self.again else (next(left, None), 1)
            if item is None:
                return
            try:
                self.running[self.engine.executor.submit(*self.call(item))] = item, attempt
            except BrokenExecutor:
                self.begin_anew(item, attempt)

    def take(self, future: Future[Any], item: Any, attempt: int) -> None:
        try:
            result = future.result()
        except BrokenExecutor:
            self.begin_anew(item, attempt)
        except (Exception, CancelledError) as error:
            self.failed(item, attempt, error)
        else:
            self.keep_result(item, attempt, result)

    def keep_result(self, item: Any, attempt: int, result: Any) -> None:
        try:
            self.keep(item, result)
        except RuntimeError as error:
            self.failed(item, attempt, error)
        else:
            self.finished += 1
            self.breaks = 0

    def failed(self, item: Any, attempt: int, error: BaseException) -> None:
        if attempt < ATTEMPTS:
            self.again.append((item, attempt + 1))
            return
        self.given_up.append((item, str(error) or type(error).__name__))
        if not self.finished and len(self.given_up) >= FAILED_AT_FIRST:
            raise Hopeless(self.given_up[-1][1])

    def begin_anew(self, item: Any, attempt: int) -> None:
        """All that was on its way in a broken pool is lost, and begun again; but not an item that was there each time."""
        self.breaks += 1
        for one, its_attempt in [(item, attempt), *self.running.values()]:
            self.broken[one] += 1
            if self.broken[one] > BREAKS:
                self.given_up.append((one, f"workers were killed {BREAKS + 1} times while it ran: is memory short?"))
            else:
                self.again.append((one, its_attempt))
        self.running.clear()
        if self.breaks > BREAKS:
            raise Hopeless(f"workers were killed {self.breaks} times, and no chunk was finished between: is memory short?")
        self.engine.renew()

    def let_finish(self) -> None:
        """Cancels what hasn't begun, and keeps what finishes."""
        for future in list(self.running):
            if future.cancel():
                del self.running[future]
        if self.running:
            self.tell(f"{len(self.running)} chunks are being finished; Ctrl-C again ends them")
        try:
            for future in wait(self.running).done:
                if not future.cancelled() and future.exception() is None:
                    self.keep(self.running[future][0], future.result())
        except KeyboardInterrupt:
            self.engine.stop()
