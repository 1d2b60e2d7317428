"""How far a sweep is: a bar on a terminal, which is written anew a few times a second."""

from __future__ import annotations

import sys
import time

LEAST_SECONDS = 0.2
WIDTH = 20


class Progress:
    """Counts sets. On anything but a terminal it writes nothing."""

    def __init__(self, all_sets: int, done: int) -> None:
        self.all, self.done, self.at_first = all_sets, done, done
        self.failed = 0
        self.began = self.told = time.monotonic()
        self.is_shown = sys.stderr.isatty()

    def add(self, sets: int, failed: int = 0) -> None:
        self.done += sets
        self.failed += failed
        if self.is_shown and time.monotonic() - self.told > LEAST_SECONDS:
            self.told = time.monotonic()
            self.write(f"\r\033[K{self.text()}")

    def close(self) -> None:
        """Takes the bar away."""
        if self.is_shown:
            self.write("\r\033[K")

    def text(self) -> str:
        seconds = time.monotonic() - self.began
        speed = (self.done - self.at_first) / seconds if seconds else 0
        left = f", {clock((self.all - self.done) / speed)} left" if speed else ""
        failed = f", {self.failed} failed" if self.failed else ""
        full = WIDTH * self.done // max(1, self.all)
        return f"[{'#' * full}{'.' * (WIDTH - full)}] {self.done:,} of {self.all:,} sets, {speed:,.0f}/s{left}{failed}"

    @staticmethod
    def write(text: str) -> None:
        sys.stderr.write(text)
        sys.stderr.flush()


def clock(seconds: float) -> str:
    """A time as hours, minutes and seconds.

    >>> clock(75), clock(7325)
    ('1:15', '2:02:05')
    """
    minutes, left = divmod(round(seconds), 60)
    hours, minutes = divmod(minutes, 60)
    return f"{hours}:{minutes:02}:{left:02}" if hours else f"{minutes}:{left:02}"
