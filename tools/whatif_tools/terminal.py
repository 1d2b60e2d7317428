"""whatif-shell: a prompt for whatif, with tables, hints, history and completion; what it sends is the script that it saves."""

import argparse
import sys
from collections.abc import Iterator

from .functions import FUNCTIONS
from .line_hints import WORDS
from .program import NoProgram, program, program_help
from .shell import OWN_WORDS, Leave, Shell

try:
    import readline
except ImportError:
    readline = None  # type: ignore[assignment]  # Python is built without it where its library is missing

GREETING = "whatif: a command a line, as set A1 5 or show A1:B9; help lists them, Ctrl-D ends\n"
NAMED = ("use", "drop", "base", "compare", "scenario")
"""Commands with names of scenarios."""


def candidates(line: str, shell: Shell) -> list[str]:
    """What the last word of a line may go on to."""
    words = line.split(" ")
    if len(words) == 1:
        return [f"{word} " for word in (*WORDS.split("|"), *(own.split()[0] for own in OWN_WORDS))]
    if words[0] == "as":
        return sorted(shell.scenarios.sessions)
    if words[0] in NAMED:
        return [f"{name} " for name in sorted(shell.scenarios.scenarios)]
    return [f"{name}(" for name in sorted(FUNCTIONS)] if "=" in line else []


def completed(line: str, begun: str, shell: Shell) -> list[str]:
    """The candidates that a begun word may become; a function's name in letters of either case."""
    return [word for word in candidates(line, shell) if word.startswith(begun) or "=" in line and word.startswith(begun.upper()) and begun]


def set_up(shell: Shell) -> None:
    """Line editing, history and completion, where there is the library."""
    if readline is None:
        return

    def complete(begun: str, state: int) -> str | None:
        found = completed(readline.get_line_buffer()[: readline.get_endidx()], begun, shell)
        return found[state] if state < len(found) else None

    readline.set_completer(complete)
    readline.set_completer_delims(" =+-*/^&<>();")
    readline.parse_and_bind("tab: complete")


def lines(shell: Shell, is_terminal: bool) -> Iterator[tuple[str, tuple[str, ...]]]:
    """The lines that are typed, each with its data; Ctrl-C takes back what was begun, and Ctrl-D ends."""
    while True:
        try:
            line = input(shell.prompt() if is_terminal else "")
            wanted = shell.lines_wanted(line)
            data: list[str] = []
            while len(data) < wanted:
                left = wanted - len(data)
                data.append(input(f"{left} {'line' if left == 1 else 'lines'} more> " if is_terminal else ""))
        except KeyboardInterrupt:
            print()
        except EOFError:
            return
        else:
            yield line, tuple(data)


def talk(shell: Shell, script: str | None) -> None:
    is_terminal = sys.stdin.isatty()
    if is_terminal:
        set_up(shell)
        print(GREETING, end="")
    if script is not None:
        shell.do_load(["load", script])
        print(shell.told(), end="")
    for line, data in lines(shell, is_terminal):
        try:
            shell.take(line, data)
        except KeyboardInterrupt:
            shell.interrupted()
        finally:
            print(shell.told(), end="", flush=True)
    if is_terminal:
        print()


def main(words: list[str]) -> int:
    parser = argparse.ArgumentParser(prog="whatif-shell", description=__doc__)
    parser.add_argument("script", metavar="SCRIPT", nargs="?", help="a script that is run first")
    asked = parser.parse_args(words)
    try:
        shell = Shell(program(), program_help())
    except NoProgram as error:
        print(f"whatif-shell: {error}", file=sys.stderr)
        return 2
    try:
        talk(shell, asked.script)
    except Leave:
        pass
    finally:
        shell.close(shell.book)
    return 0
