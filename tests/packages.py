"""The packages of Debian beside Python, without which some tests are skipped.

    python3 tests/packages.py      writes the names of those that aren't there; ends with status 1 if there are any
"""

import importlib.util
import shutil
import subprocess
import sys
from collections.abc import Callable


def compiles(line: str) -> Callable[[], bool]:
    """Whether a C compiler is there and finds a header."""
    words = ["-x", "c", "-fsyntax-only", "-"]
    return lambda: succeeds([shutil.which("cc") or "gcc", *words], line)


def succeeds(words: list[str], given: str = "") -> bool:
    try:
        return subprocess.run(words, input=given, text=True, capture_output=True).returncode == 0
    except OSError:
        return False


def command(name: str) -> Callable[[], bool]:
    return lambda: shutil.which(name) is not None


def has_module(name: str) -> bool:
    return importlib.util.find_spec(name) is not None


def module(name: str) -> Callable[[], bool]:
    return lambda: has_module(name)


# By their names, how to see that they are there.
PACKAGES: dict[str, Callable[[], bool]] = {
    "gcc libc6-dev": compiles("#include <stdlib.h>\n"),
    "valgrind": lambda: succeeds(["valgrind", "--version"]) and (not compiles("")() or compiles("#include <valgrind/valgrind.h>\n")()),
    "vim": lambda: succeeds(["sh", "-c", "vim --version | grep -q '+syntax'"]),
    "gnuplot-nox": command("gnuplot"),
    "gnumeric": command("ssconvert"),
    "parallel": command("parallel"),
    "python3-pandas": module("pandas"),
    "python3-pip": module("pip"),
    "python3-nbclient python3-ipykernel python3-matplotlib": lambda: all(map(has_module, ("nbclient", "ipykernel", "matplotlib"))),
    "mypy": command("mypy"),
    "pyflakes3": command("pyflakes3"),
    "pycodestyle": command("pycodestyle"),
    "libreoffice-calc": command("soffice"),
    "chromium": command("chromium"),
    "man-db": lambda: succeeds(["sh", "-c", "man --version | grep -q '^man [0-9]'"]),
    "dpkg": command("dpkg-deb"),
}


def missing() -> list[str]:
    return [name for name, is_there in PACKAGES.items() if not is_there()]


if __name__ == "__main__":
    print(" ".join(missing()))
    sys.exit(1 if missing() else 0)
