"""The Python of the repository, and what looks over it: each gives its findings, a line for each."""

import os
import re
import shutil
import subprocess
from collections.abc import Iterator, Sequence
from dataclasses import dataclass
from importlib import import_module
from importlib.util import find_spec
from pathlib import Path
from typing import Any

LEFT_OUT = (".git", "__pycache__", "crates", "out", "release")
"""Folders that have no Python of ours, or what is made."""

HEAD = re.compile(rb"#!.*\bpython3?\b")
PATH_LINE = re.compile(r"sys\.path\.insert\(0, str\(Path\(__file__\)\.resolve\(\)\.parents\[[1-3]\]\)\)")
MAY_TOUCH_THE_PATH = (
    "tests/__init__.py",  # the tools and the client, for tests
    "tests/support/closing.py",  # a folder of tests that is no package
    "tools/whatif_tools/client.py",  # the client, for tools
    "clients/python/whatif/hints.py",  # the tools, for the client
    "tests/lint/",  # which has the line to look for
)
IGNORED = re.compile(r"# type: ignore(?!\[[a-z-]+(?:, [a-z-]+)*\]  # \w)")


@dataclass(frozen=True)
class Sources:
    """The Python below a folder, as paths from there on: files whose names end in .py, and programs whose names don't."""

    root: Path
    modules: list[str]
    programs: list[str]

    @classmethod
    def below(cls, root: Path) -> "Sources":
        modules, programs = [], []
        for path in files(root):
            name = str(path.relative_to(root))
            if path.suffix == ".py":
                modules.append(name)
            elif not path.suffix:
                with path.open("rb") as file:
                    if HEAD.match(file.read(100)):
                        programs.append(name)
        return cls(root, sorted(modules), sorted(programs))

    @property
    def python(self) -> list[str]:
        return [*self.modules, *self.programs]

    def findings(self, words: Sequence[str], **more: str) -> list[str]:
        """The lines that a program writes of the files; one that fails without a word has a finding too."""
        ran = subprocess.run(words, cwd=self.root, env={**os.environ, **more}, stdin=subprocess.DEVNULL, capture_output=True, text=True)
        lines = [*ran.stdout.splitlines(), *ran.stderr.splitlines()]
        return [] if ran.returncode == 0 else lines or [f"{words[0]} ends with status {ran.returncode}"]


def files(root: Path) -> Iterator[Path]:
    for folder, folders, names in os.walk(root):
        folders[:] = sorted(set(folders) - set(LEFT_OUT))
        for name in names:
            yield Path(folder, name)


def configuration(root: Path) -> dict[str, Any]:
    """What pyproject.toml says of the tools, where this Python can read it."""
    if not find_spec("tomllib"):
        return {}
    told: dict[str, Any] = import_module("tomllib").loads((root / "pyproject.toml").read_text())["tool"]
    return told


def pyflakes(sources: Sources) -> list[str]:
    return sources.findings(["pyflakes3", *sources.python])


def pycodestyle(sources: Sources) -> list[str]:
    """It doesn't read pyproject.toml itself."""
    told = configuration(sources.root)["pycodestyle"]
    return sources.findings(["pycodestyle", f"--max-line-length={told['max-line-length']}", f"--ignore={','.join(told['ignore'])}", *sources.python])


def ruff(sources: Sources) -> list[str]:
    """Nothing where it isn't installed: Debian has none."""
    return sources.findings(["ruff", "check", "--no-cache", *sources.python]) if shutil.which("ruff") else []


def mypy(sources: Sources, scratch: Path) -> list[str]:
    """Programs whose names don't end in .py are looked over as modules with names of their own, in another folder."""
    names = {}
    for program in sources.programs:
        copied = scratch / f"program_{re.sub('[^0-9A-Za-z]', '_', program)}.py"
        shutil.copy(sources.root / program, copied)
        names[str(copied)] = program
    words = ["mypy", "--config-file", str(sources.root / "pyproject.toml"), "--no-error-summary", *sources.modules, *names]
    lines = sources.findings(words, MYPYPATH=str(scratch))
    for copied_name, program in names.items():
        lines = [line.replace(copied_name, program) for line in lines]
    return lines


def other_paths(sources: Sources) -> list[str]:
    """Lines that put something on the path otherwise than by the one line of programs."""
    return [
        f"{name}:{number}: {line.strip()}"
        for name in sources.python
        if not name.startswith(MAY_TOUCH_THE_PATH)
        for number, line in enumerate((sources.root / name).read_text().splitlines(), 1)
        if "sys.path" in line and not PATH_LINE.fullmatch(line)
    ]


def ignored_without_a_reason(sources: Sources) -> list[str]:
    return [
        f"{name}:{number}: {line.strip()}"
        for name in sources.python
        for number, line in enumerate((sources.root / name).read_text().splitlines(), 1)
        if IGNORED.search(line) and not name.startswith("tests/lint/")
    ]
