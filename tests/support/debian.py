"""Debian's own Python, which has the packages of tests/packages.py, where the one that runs lacks one."""

import os
import subprocess
import sys
from importlib.util import find_spec

PYTHON = "/usr/bin/python3"


def finds(python: str, module: str) -> bool:
    """Whether that Python is there and finds a module."""
    words = [python, "-c", f"import importlib.util, sys; sys.exit(importlib.util.find_spec({module!r}) is None)"]
    return os.access(python, os.X_OK) and subprocess.run(words).returncode == 0


def where_there_is(module: str, program: str) -> None:
    """Goes on with a program by Debian's Python, if that has a module that this one lacks."""
    if find_spec(module) is None and sys.executable != PYTHON and finds(PYTHON, module):
        os.execv(PYTHON, [PYTHON, program, *sys.argv[1:]])
