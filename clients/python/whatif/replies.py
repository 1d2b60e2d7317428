"""The lines of the program's replies."""

from __future__ import annotations

import csv
import io
import os
import select
from collections import deque
from typing import IO, Optional

SIZE = 1 << 16


class Replies:
    """Reads lines. An interrupt while it waits for one loses none."""

    def __init__(self, file: IO[bytes]) -> None:
        self._descriptor = file.fileno()
        self._wait = select.poll()
        self._wait.register(self._descriptor, select.POLLIN)
        self._lines: deque[bytes] = deque()
        self._rest = b""

    def next(self) -> Optional[bytes]:
        """The next line without its end, or None at the end."""
        while not self._lines:
            self._wait.poll()
            given = os.read(self._descriptor, SIZE)
            if not given:
                return None
            *lines, self._rest = (self._rest + given).split(b"\n")
            self._lines.extend(lines)
        return self._lines.popleft()


class Reply:
    """The reply to one command, as far as it was read. A line within quotes is a part of a field, whatever it looks like."""

    def __init__(self) -> None:
        self.lines: list[bytes] = []
        self.quotes = 0

    def ends(self, line: bytes) -> bool:
        """Takes a line; whether it is the last one, `ok` or `refused`."""
        if self.quotes % 2 == 1 or line.startswith(b'"'):
            self.lines.append(line)
            self.quotes += line.count(b'"')
            return False
        return line == b"ok" or line.startswith(b"refused ")

    def records(self) -> list[list[str]]:
        """The records; a field may have line breaks in it."""
        return list(csv.reader(io.StringIO((b"\n".join(self.lines) + b"\n").decode(), newline=""))) if self.lines else []
