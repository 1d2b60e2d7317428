"""Tests that have a folder of their own, and programs that are made in it."""

import tempfile
import unittest
from collections.abc import Mapping
from pathlib import Path


class ScratchTest(unittest.TestCase):
    """A test in a folder of its own."""

    is_written_until_the_end = False
    """Whether a process that the test doesn't wait for may still write into the folder when that is taken away."""

    def setUp(self) -> None:
        scratch = tempfile.TemporaryDirectory(ignore_cleanup_errors=self.is_written_until_the_end)
        self.addCleanup(scratch.cleanup)
        self.folder = Path(scratch.name)


def write_files(root: Path, files: Mapping[str, str]) -> None:
    """Texts as files below a folder."""
    for name, text in files.items():
        file = root / name
        file.parent.mkdir(parents=True, exist_ok=True)
        file.write_text(text)


def made_program(path: Path, text: str) -> Path:
    """A text as a program."""
    path.parent.mkdir(parents=True, exist_ok=True)
    path.write_text(text)
    path.chmod(0o755)
    return path


def made_script(path: Path, text: str) -> Path:
    """Lines of the shell as a program."""
    return made_program(path, f"#!/bin/sh\n{text}\n")
