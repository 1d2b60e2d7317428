"""The running program: commands and replies."""

from __future__ import annotations

import subprocess
import tempfile
from contextlib import suppress
from enum import Enum

from .journal import Journal
from .refusals import Refused
from .replies import Replies, Reply

STATUSES = {
    2: "the program's words are wrong",
    3: "a read or a write failed",
    4: "a run has at most 1,000,000 lines",
    5: "memory was refused at the start",
}


class Ended(Exception):
    """The program has ended: its exit status, and what it wrote to standard error."""

    def __init__(self, status: int, complaint: str) -> None:
        self.status = status
        self.complaint = complaint
        super().__init__(f"whatif ended with exit status {status}: {complaint or STATUSES.get(status, 'no word of it')}")


class ProgramMissing(FileNotFoundError):
    """There is no such program."""

    def __init__(self, name: str) -> None:
        super().__init__(
            f"{name}: no such program. Give its path by the environment variable WHATIF, or as Workbook(\"path/to/whatif\"), or put it on the"
            " path as whatif; in the repository of whatif, ./whatif builds it once, and leaves it in crates/whatif/out"
        )


class State(Enum):
    """Where the exchange with the program is."""

    READY = "a command may be sent"
    SENDING = "a command was interrupted before all of it was sent: open another workbook"
    WAITING = "a command was sent, and its reply isn't read"
    CLOSED = "this workbook is closed: open another one"


class Process:
    """The running program. A command is sent, and its whole reply is read before the next one is sent.

    The program has a session of the system of its own, so that Ctrl-C at the terminal doesn't end it.
    """

    def __init__(self, words: list[str]) -> None:
        self.lines = 0
        self.journal = Journal()
        self._state = State.READY
        self._complaints = tempfile.TemporaryFile()
        try:
            self._program = subprocess.Popen(
                words, stdin=subprocess.PIPE, stdout=subprocess.PIPE, stderr=self._complaints, start_new_session=True
            )
        except FileNotFoundError:
            raise ProgramMissing(words[0]) from None
        assert self._program.stdin and self._program.stdout
        self._commands, self._output = self._program.stdin, self._program.stdout
        self._replies = Replies(self._output)
        self._sent: tuple[str, bytes] = "", b""
        self._reply = Reply()
        self._late: list[tuple[str, str]] = []

    def close(self) -> int:
        """Ends the input and waits for the program; the exit status. A program that is busy with what was interrupted is ended."""
        if self._state is not State.CLOSED:
            if self._state is not State.READY:
                self._program.terminate()
            self._state = State.CLOSED
            try:
                self._commands.close()
            except OSError:
                pass  # the program has ended before
            self._output.close()
            self._complaints.close()
        return self._program.wait()

    def run(self, session: str, line: str, data: bytes = b"") -> list[list[str]]:
        """The records that a command of this session is answered."""
        self.make_ready()
        self._be(session)
        return self._exchange(line, data)

    def send(self, line: str, data: bytes = b"") -> list[list[str]]:
        """The records that a command of the current session is answered."""
        self.make_ready()
        return self._exchange(line, data)

    def later(self, session: str, *lines: str) -> None:
        """Commands that clean up after an interrupt, before the next command. One that is refused doesn't matter."""
        self._late += [(session, line) for line in lines]

    def _be(self, session: str) -> None:
        if session != self.journal.session:
            self._exchange(f"as {session}")

    def _exchange(self, line: str, data: bytes = b"") -> list[list[str]]:
        """Sends a command, and reads its reply."""
        if "\n" in line:
            raise ValueError(f"a command is one line: {line[:60]!r}")
        whole = line.encode() + b"\n" + data
        self._sent, self._reply = (line, data), Reply()
        self._state = State.SENDING
        try:
            self._commands.write(whole)
            self._commands.flush()
        except (BrokenPipeError, ConnectionResetError):
            raise self._ended() from None
        self._state = State.WAITING
        self.lines += whole.count(b"\n")
        return self._answer()

    def make_ready(self) -> None:
        """Reads an interrupted reply to its end, and drops it; its command may have been accepted. Then cleans up after it."""
        if self._state is State.WAITING:
            with suppress(Refused):
                self._answer()
        if self._state is not State.READY:
            raise RuntimeError(self._state.value)
        while self._late:
            session, line = self._late[0]
            with suppress(Refused):
                self._be(session)
                self._exchange(line)
            self._late.pop(0)

    def _answer(self) -> list[list[str]]:
        """Reads the reply to its end, from where it was left."""
        while True:
            line = self._replies.next()
            if line is None:
                raise self._ended()
            if self._reply.ends(line):
                break
        self._state = State.READY
        if line != b"ok":
            raise Refused(line.decode().removeprefix("refused "), self._sent[0], self.journal.scenarios)
        self.journal.accept(*self._sent)
        return self._reply.records()

    def _ended(self) -> Ended:
        status = self._program.wait()
        self._state = State.READY
        self._complaints.seek(0)
        return Ended(status, self._complaints.read().decode(errors="replace").strip())
