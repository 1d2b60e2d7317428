"""Calls of the program, and what is looked at after each."""

import os
import signal
import subprocess
from collections.abc import Callable, Sequence
from pathlib import Path
from typing import IO, Any

from tests.support.program import PROGRAM, Ended, awaited
from tests.support.scratch import ScratchTest

SECONDS = 60
PATIENCE = 10

# Exit statuses, as the manual has them.
WELL, USAGE, DEVICE, SCRIPT_LIMIT, MEMORY = 0, 2, 3, 4, 5


def call(words: Sequence[str | bytes] = (), given: bytes | None = None, before: Callable[[], None] | None = None, **streams: Any) -> Ended:
    """Calls the program with some words on some bytes, or on streams that are given by their names. What is done before it
    starts is done in its process."""
    if given is None:
        streams.setdefault("stdin", subprocess.DEVNULL)
    else:
        streams["input"] = given
    pipes: dict[str, Any] = {"stdout": subprocess.PIPE, "stderr": subprocess.PIPE}
    ran: subprocess.CompletedProcess[bytes] = subprocess.run([PROGRAM, *words], **pipes | streams, preexec_fn=before, timeout=SECONDS)
    return Ended(ran.returncode, ran.stdout or b"", ran.stderr or b"")


def started(before: Callable[[], None] | None = None) -> "subprocess.Popen[bytes]":
    """Starts the program on pipes."""
    return subprocess.Popen([PROGRAM], stdin=subprocess.PIPE, stdout=subprocess.PIPE, stderr=subprocess.PIPE, bufsize=0, preexec_fn=before)


def exactly(stream: IO[bytes], count: int) -> bytes:
    """The next bytes of a pipe that isn't buffered, or fewer where it ends or they don't come."""
    return awaited(stream, count, PATIENCE)


def ignore_broken_pipes() -> None:
    signal.signal(signal.SIGPIPE, signal.SIG_IGN)


def die_of_broken_pipes() -> None:
    signal.signal(signal.SIGPIPE, signal.SIG_DFL)


class DeviceTest(ScratchTest):
    """A test of a call in a folder of its own."""

    maxDiff = 2_000

    def file(self, name: str, contents: bytes) -> Path:
        path = self.folder / name
        path.write_bytes(contents)
        return path

    def assert_ended(self, ended: Ended, status: int, written: bytes) -> None:
        """The status and what was written are these, and a fault is told in one sentence."""
        self.assertEqual((ended.status, ended.written), (status, written), ended.told)
        if status == WELL:
            self.assertEqual(ended.told, b"")
        else:
            self.assertRegex(ended.told, rb"\Awhatif: [^\n]+; [^\n]+\n\Z")

    def assert_unread(self, stream: IO[bytes]) -> None:
        """Nothing was read of a file that stood for standard input."""
        self.assertEqual(os.lseek(stream.fileno(), 0, os.SEEK_CUR), 0)
