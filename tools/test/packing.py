"""A repository and a toolchain for tests of tools/release: the files of this one in a commit of their own, and stubs of `rt` and its libraries."""

import os
import shutil
import subprocess
import sys
import tempfile
import unittest
from dataclasses import dataclass
from pathlib import Path
from typing import Optional

from release_tools.elf import logic
from release_tools.licences import own_crates
from tests.packages import PACKAGES
from tests.support.stub_elf import write
from whatif_tools.program import ROOT, program


LOGIC = "0123456789abcdef"
PACKED = ("README.md", "CHANGELOG.md", "VERSION", "Containerfile", "crates.txt", "start", "docs", "tools", "clients", "examples", "editors")
COMMITTER = {f"GIT_{who}_{what}": text for who in ("AUTHOR", "COMMITTER")
             for what, text in (("NAME", "a maintainer"), ("EMAIL", "maintainer@example.org"), ("DATE", "2026-02-03T04:05:06Z"))}
VERSION = (ROOT / "VERSION").read_text().strip()
TARBALL, DEB = f"whatif-{VERSION}-x86_64-linux.tar.gz", f"whatif_{VERSION}_amd64.deb"
WHEEL = f"whatif_client-{VERSION}-py3-none-any.whl"


@dataclass(frozen=True)
class Place:
    """Where a test has its repository, its toolchain and its programs."""

    folder: Path

    @property
    def clone(self) -> Path:
        return self.folder / "clone"

    def git(self, *words: str) -> str:
        done = subprocess.run(["git", *words], cwd=self.clone, env={**os.environ, **COMMITTER}, capture_output=True, text=True, check=True)
        return done.stdout.strip()

    def commit(self) -> str:
        self.git("add", "--all")
        self.git("commit", "--quiet", "--allow-empty", "--message", "A commit of a test")
        return self.git("rev-parse", "HEAD")

    def environment(self) -> dict[str, str]:
        path = os.pathsep.join([str(self.folder / "bin"), os.environ["PATH"]])
        return {key: it for key, it in {**os.environ, "PATH": path}.items() if key != "WHATIF"}

    def program(self, name: str, note: str, text: str = 'exec "{whatif}" "$@"') -> Path:
        """A program with this note in its section .comment. It does what the real one does."""
        file = self.folder / name
        write(file, note.encode(), text.format(whatif=Path(program()).resolve()))
        return file

    def release(self, given: Optional[Path], to: str, version: str = VERSION) -> "subprocess.CompletedProcess[str]":
        words = [sys.executable, str(self.clone / "tools" / "release"), *(["--program", str(given)] if given else []), version, str(self.folder / to)]
        return subprocess.run(words, capture_output=True, text=True, env=self.environment())


def place(folder: Path) -> Place:
    made = Place(folder)
    files = subprocess.run(["git", "ls-files", "-z", "--cached", "--others", "--exclude-standard", "--", *PACKED], cwd=ROOT, stdout=subprocess.PIPE,
                           text=True, check=True)
    for name in filter(None, files.stdout.split("\0")):
        if (ROOT / name).exists():
            (made.clone / name).parent.mkdir(parents=True, exist_ok=True)
            shutil.copy(ROOT / name, made.clone / name)
    made.git("init", "--quiet")
    made.commit()
    toolchain(made)
    return made


def toolchain(made: Place) -> None:
    """Stubs of `rt` and of each library that crates.txt names; csv needs serde, and has a licence, as that has."""
    kit = made.folder / "kit"
    uses = own_crates(ROOT)
    for name in {"std", "serde", *(it for names in uses.values() for it in names)} - set(uses):
        for folder in (kit / "rlibs" / f"{name}.rlib", kit / "rattle" / name):
            folder.mkdir(parents=True)
        (kit / "rlibs" / f"{name}.rlib" / "format").write_text(f"rattle rlib\ncrate {name}\ndep {'serde' if name == 'csv' else 'std'}\n")
    for name in ("csv", "serde"):
        (kit / "rattle" / name / "LICENSE-MIT").write_text(f"The terms of {name}\n")
    rt = made.folder / "bin" / "rt"
    rt.parent.mkdir()
    rt.write_text(f"#!/bin/sh\ncase $1 in version) echo a-kit logic {LOGIC} ;; doc) echo '{kit}/START-HERE.md' ;; *) exit 1 ;; esac\n")
    rt.chmod(0o755)


def has_man() -> bool:
    return PACKAGES["man-db"]()


def proved_program() -> Optional[Path]:
    """The program under test, if it is a proved one."""
    tried = Path(program())
    return tried.resolve() if tried.is_file() and logic(tried) else None


class Scratch(unittest.TestCase):
    """A folder for all tests of a class, with a repository that may be packed."""

    place: Place
    stub: Path

    @classmethod
    def setUpClass(cls) -> None:
        if not shutil.which("git") or not (ROOT / ".git").exists():
            raise unittest.SkipTest("this isn't a repository of git")
        scratch = tempfile.TemporaryDirectory(prefix="whatif-release-test-")
        cls.addClassCleanup(scratch.cleanup)
        cls.place = place(Path(scratch.name).resolve())
        cls.stub = cls.place.program("stub", f"rattle logic={LOGIC}99")
