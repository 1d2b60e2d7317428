"""whatif-check: runs scripts, and says where a command was refused and why, what was meant otherwise, and where errors start."""

import argparse
import sys
from pathlib import Path

from .check import STANDARD_INPUT, Check
from .program import NoProgram

EPILOG = (
    "A script - is standard input. Each finding begins with FILE:LINE:COLUMN. A comment #! E12 right above a command says that this"
    " refusal is meant, #! #NUM! that this error is, #! meant that whatever is found there is. Exit status: 0 nothing was found, 1 something"
    " was, 2 a script or the program can't be opened. The environment variable WHATIF says where whatif is; else it is the one built in this"
    " repository."
)


def arguments(words: list[str]) -> argparse.Namespace:
    parser = argparse.ArgumentParser(prog="whatif-check", description=__doc__, epilog=EPILOG)
    parser.add_argument("-t", "--transcript", action="store_true", help="write each command with its line number and its reply first")
    load = "run this script before each of the others, as whatif --load does, and look at it too"
    parser.add_argument("--load", metavar="MODEL", type=Path, help=load)
    parser.add_argument("scripts", nargs="+", metavar="SCRIPT", type=Path)
    asked = parser.parse_args(words)
    if asked.load == STANDARD_INPUT:
        parser.error("--load takes a file")
    return asked


def told(check: Check, has_transcript: bool) -> bool:
    """Writes what is found in a script; whether anything is."""
    if has_transcript:
        sys.stdout.write(check.transcript())
    findings = check.findings()
    sys.stdout.write("".join(finding.text(str(check.path)) for finding in findings))
    return bool(findings)


def main(words: list[str]) -> int:
    asked = arguments(words)
    try:
        loaded = None if asked.load is None else Check.of(asked.load)
        is_found = loaded is not None and told(loaded, asked.transcript)
        for path in asked.scripts:
            is_found = told(Check.of(path, loaded), asked.transcript) or is_found
    except (OSError, NoProgram) as error:
        print(f"whatif-check: {error}", file=sys.stderr)
        return 2
    return 1 if is_found else 0
