"""Standard input, output and error that are full, closed or broken."""

import os
import resource
import signal
import socket
import subprocess
import time
import unittest
from collections.abc import Callable
from pathlib import Path

from tests.devices.calls import DEVICE, SECONDS, USAGE, WELL, DeviceTest, call, die_of_broken_pipes, exactly, ignore_broken_pipes, started
from tests.support.program import PROGRAM, Ended

SCRIPT = b"set A1 5\nset A2 =[.A1]*2\nshow A1:A2\nfrob\nexport A1:A2\n"
REPLIES = b'ok\nok\n"5"\r\n"10"\r\nok\nrefused E02\nlines 2\n"5"\r\n"10"\r\nok\n'
MANY = 20_000
FITTED = (
    (SCRIPT, REPLIES),
    (b"set A1 1\nset A2 2\nshow A1:A2\n", b'ok\nok\n"1"\r\n"2"\r\nok\n'),
    (b"set A1 =-2^2\nset A2 =2^3^2\nshow A1:A2\n", b'ok\nok\n"4"\r\n"64"\r\nok\n'),
)


class FullDisk(DeviceTest):
    @unittest.skipUnless(Path("/dev/full").exists(), "no /dev/full")
    def test_a_full_disk_is_a_fault_of_writing(self) -> None:
        with open("/dev/full", "wb") as full:
            ended = call(given=SCRIPT, stdout=full)
            self.assert_ended(ended, DEVICE, b"")
            self.assertTrue(ended.told.startswith(b"whatif: the replies can't be written; "), ended.told)

    @unittest.skipUnless(Path("/dev/full").exists(), "no /dev/full")
    def test_where_nothing_is_written_a_full_disk_is_no_fault(self) -> None:
        with open("/dev/full", "wb") as full:
            self.assert_ended(call(given=b"# a comment\n\n", stdout=full), WELL, b"")

    def test_what_fits_on_a_disk_is_the_beginning_of_the_replies(self) -> None:
        path = self.folder / "replies"
        for script, replies in FITTED:
            for room in range(len(replies) + 1):

                def limit() -> None:
                    signal.signal(signal.SIGXFSZ, signal.SIG_IGN)
                    resource.setrlimit(resource.RLIMIT_FSIZE, (room, room))

                with self.subTest(script=script, room=room), path.open("wb") as disk:
                    ended = call(given=script, stdout=disk, before=limit)
                    self.assert_ended(ended, WELL if room == len(replies) else DEVICE, b"")
                    self.assertEqual(path.read_bytes(), replies[:room])


class BrokenPipe(DeviceTest):
    def written_to_nobody(self, before: Callable[[], None]) -> None:
        reader, writer = os.pipe()
        os.close(reader)
        with os.fdopen(writer, "wb") as nobody:
            self.assert_ended(call(given=SCRIPT, stdout=nobody, before=before), DEVICE, b"")

    def test_where_nobody_reads_and_the_signal_is_ignored(self) -> None:
        self.written_to_nobody(ignore_broken_pipes)

    def test_where_nobody_reads_and_the_signal_is_as_usual(self) -> None:
        self.written_to_nobody(die_of_broken_pipes)

    def test_a_reader_that_has_enough_got_the_beginning_of_the_replies(self) -> None:
        for before in (ignore_broken_pipes, die_of_broken_pipes):
            with self.subTest(before=before.__name__), started(before) as process:
                assert process.stdin and process.stdout and process.stderr
                process.stdin.write(b"set A1 5\nshow A1\n")
                read = exactly(process.stdout, 4)
                process.stdout.close()
                try:
                    process.stdin.write(b"show A1\n" * MANY)
                    process.stdin.close()
                except BrokenPipeError:
                    pass
                told = process.stderr.read()
                self.assertEqual((read, process.wait(SECONDS)), (b'ok\n"', DEVICE))
                self.assertRegex(told, rb"\Awhatif: [^\n]+\n\Z")


class FullPipe(DeviceTest):
    text = b"x" * 30_000
    script = b"set A1 " + text + b"\n" + b"show A1\n" * 10
    replies = b"ok\n" + (b'"' + text + b'"\r\nok\n') * 10

    def test_a_slow_reader_gets_all(self) -> None:
        with started() as process:
            assert process.stdin and process.stdout
            process.stdin.write(self.script)
            process.stdin.close()
            read = b""
            while more := process.stdout.read(5_000):
                read += more
                time.sleep(0.001)
            self.assertEqual((read == self.replies, process.wait(SECONDS)), (True, WELL))

    def test_a_full_pipe_that_does_not_wait_is_a_fault_of_writing(self) -> None:
        reader, writer = os.pipe()
        os.set_blocking(writer, False)
        with os.fdopen(reader, "rb") as pipe:
            with os.fdopen(writer, "wb") as output:
                self.assert_ended(call(given=self.script, stdout=output), DEVICE, b"")
            read = pipe.read()
        self.assertLess(len(read), len(self.replies))
        self.assertEqual(read, self.replies[: len(read)])


class ClosedStreams(DeviceTest):
    def test_closed_standard_input_is_a_fault_of_reading(self) -> None:
        self.assert_ended(call(before=lambda: os.close(0)), DEVICE, b"")

    def test_closed_standard_output_is_a_fault_of_writing(self) -> None:
        self.assert_ended(call(given=SCRIPT, before=lambda: os.close(1)), DEVICE, b"")

    def test_closed_standard_error_changes_no_reply_and_no_status(self) -> None:
        def close() -> None:
            os.close(2)

        self.assertEqual(call(given=SCRIPT, before=close).written, REPLIES)
        self.assertEqual(call(given=SCRIPT, before=close).status, WELL)
        self.assertEqual(call(["--frob"], before=close).status, USAGE)
        self.assertEqual(call(["--load", str(self.folder / "missing")], before=close).status, DEVICE)

    def test_the_file_is_run_though_standard_input_is_closed(self) -> None:
        ended = call(["--load", str(self.file("plan", SCRIPT))], before=lambda: os.close(0))
        self.assertEqual(ended.written, REPLIES)

    def test_the_file_is_not_written_to_where_standard_output_is_closed(self) -> None:
        plan = self.file("plan", SCRIPT)
        self.assert_ended(call(["--load", str(plan)], before=lambda: os.close(1)), DEVICE, b"")
        self.assertEqual(plan.read_bytes(), SCRIPT)


class UnreadableInput(DeviceTest):
    def test_a_folder_as_standard_input_is_a_fault_of_reading(self) -> None:
        folder = os.open(self.folder, os.O_RDONLY)
        self.addCleanup(os.close, folder)
        ended = call(stdin=folder)
        self.assert_ended(ended, DEVICE, b"")
        self.assertTrue(ended.told.startswith(b"whatif: the script can't be read; "), ended.told)

    @unittest.skipUnless(Path("/proc/self/mem").exists(), "no /proc/self/mem")
    def test_a_read_that_fails_is_a_fault(self) -> None:
        with open("/proc/self/mem", "rb", buffering=0) as memory:
            self.assert_ended(call(stdin=memory), DEVICE, b"")

    def test_standard_input_that_is_for_writing_alone_is_a_fault_of_reading(self) -> None:
        with (self.folder / "out").open("wb") as output:
            self.assert_ended(call(stdin=output), DEVICE, b"")

    def test_a_read_that_fails_within_a_command_leaves_the_replies_before(self) -> None:
        for script, replies in (
            (b"", b""),
            (b"set A1 5\nsho", b"ok\n"),
            (b"set A1 5\nshow A1\ncsv A1 2\n7\n", b'ok\n"5"\r\nok\n'),
            (b"set A1 5\ncsv A1 2\n1\n", b"ok\n"),
            (b"set A1 5\ncsv A0 2\n1\n2", b"ok\n"),
            (b"csv A1 0\ncsv A1 1", b"ok\n"),
        ):
            with self.subTest(script=script):
                self.assert_ended(cut_off(script, replies), DEVICE, replies)


def cut_off(script: bytes, replies: bytes) -> Ended:
    """Runs a script whose reading fails behind its last byte, once its replies have come: of a connected pair of sockets one is
    closed with a byte in it that wasn't read, which the other one feels as a failed read."""
    ours, theirs = socket.socketpair()
    theirs.send(b"x")
    process = subprocess.Popen([PROGRAM], stdin=theirs.fileno(), stdout=subprocess.PIPE, stderr=subprocess.PIPE, bufsize=0)
    theirs.close()
    with process:
        assert process.stdout and process.stderr
        ours.sendall(script)
        read = exactly(process.stdout, len(replies))
        ours.close()
        rest, told = process.stdout.read(), process.stderr.read()
        return Ended(process.wait(SECONDS), read + rest, told)
