"""Running whatif, and parting what it writes into replies."""

import os
import re
import subprocess
from collections.abc import Sequence
from dataclasses import dataclass
from functools import lru_cache
from pathlib import Path

ROOT = Path(__file__).resolve().parents[2]
BUILT = tuple(ROOT / place for place in ("out/proved/whatif", "crates/whatif/out/whatif", "out/unproved/whatif"))
"""Where this repository's scripts leave the program: the newest is that of its files as they are."""

INSTALLED = ROOT.parent / "bin" / "whatif"
"""Where it is if these tools lie in a folder share beside the folder bin."""

RECORD = rb'"[^"]*(?:""[^"]*)*"(?:,"[^"]*(?:""[^"]*)*")*\r\n'
"""Fields in quotes; a line break between quotes is inside a field."""

REPLY = re.compile(rb"(?:lines [0-9]+\n)?(?:" + RECORD + rb")*ok\n|refused E[0-9]{2}(?: [A-Z]+[0-9]+)?\n")
FIELD = re.compile(r'"((?:[^"]|"")*)"')
MEANING = re.compile(r"^  (E[0-9][0-9])  (.*)$", re.MULTILINE)
FORM = re.compile(r"^  ([a-z]+(?: [A-Z]+)*)  ", re.MULTILINE)


class NoProgram(Exception):
    """whatif isn't where it is looked for."""


def named() -> str | None:
    """What the environment variable WHATIF names. An empty one names nothing."""
    return os.environ.get("WHATIF") or None


def newest(places: Sequence[Path] = BUILT) -> Path | None:
    """The newest program in some places: those where this repository's scripts leave it, unless others are given."""
    built = [it for it in places if it.is_file()]
    return max(built, key=lambda it: it.stat().st_mtime_ns) if built else None


def program() -> str:
    """The program's path: what the environment variable WHATIF says, else the newest of this repository, else the one installed with these tools,
    else the one on the path."""
    installed = INSTALLED if ROOT.name == "share" and INSTALLED.is_file() else None
    return named() or str(newest() or installed or "whatif")


@dataclass(frozen=True)
class Reply:
    """What the program writes for one command: its records, and then `ok` or `refused ..`."""

    lines: tuple[bytes, ...]
    end: str

    @property
    def code(self) -> str | None:
        """The code of a refusal."""
        return self.end.split(" ")[1] if self.end.startswith("refused ") else None

    def records(self) -> list[list[str]]:
        return records_of(self.lines)

    def text(self) -> str:
        return "".join(line.decode().replace("\r\n", "\n") for line in self.lines) + self.end + "\n"


@dataclass(frozen=True)
class Answer:
    """All replies of a run, its exit status, and what it said on standard error."""

    replies: list[Reply]
    status: int
    fault: str


@lru_cache(maxsize=1)
def records_of(lines: tuple[bytes, ...]) -> list[list[str]]:
    """The records among the lines of a reply. Those of the last reply are kept, since it is looked at several times."""
    return [fields(line.decode()) for line in lines if line.startswith(b'"')]


def fields(record: str) -> list[str]:
    """The fields of a record; where all quotes are those around fields, it is cut between them."""
    inside = record[1:-3]
    parts = inside.split('","')
    if record.endswith('"\r\n') and inside.count('"') == 2 * (len(parts) - 1):
        return parts
    return [field.replace('""', '"') for field in FIELD.findall(record)]


def whole_replies(written: bytes) -> tuple[list[bytes], bytes]:
    """The whole replies at the beginning of what a run wrote, and the rest, which is none."""
    replies, at = [], 0
    while found := REPLY.match(written, at):
        replies.append(found[0])
        at = found.end()
    return replies, written[at:]


def reply_of(written: bytes) -> Reply:
    """A whole reply with its records apart."""
    if written.startswith(b"refused "):
        return Reply((), written.decode().rstrip("\n"))
    lines = re.findall(rb"lines [0-9]+\n|" + RECORD, written.removesuffix(b"ok\n"))
    return Reply(tuple(lines), "ok")


def parted(written: bytes) -> list[Reply]:
    """The replies in the bytes that a run wrote."""
    return [reply_of(reply) for reply in whole_replies(written)[0]]


def call(words: Sequence[str], script: bytes, path: str | None = None, seconds: float | None = None) -> subprocess.CompletedProcess[bytes]:
    """Calls the program, or the one at a path, on a script. It has as long as it takes, unless it is told how long."""
    path = path or program()
    try:
        return subprocess.run([path, *words], input=script, capture_output=True, timeout=seconds)
    except OSError as error:
        raise NoProgram(f"{path}: {error.strerror}; ./whatif builds it, and the environment variable WHATIF may name another") from error


def run(script: bytes, loaded: Path | None = None) -> Answer:
    """Runs a script, behind another one in a file if that is given."""
    done = call([] if loaded is None else ["--load", str(loaded)], script)
    return Answer(parted(done.stdout), done.returncode, done.stderr.decode(errors="replace").strip())


@dataclass(frozen=True)
class Help:
    """What the program's help says: what each refusal means, and the forms of each command."""

    meanings: dict[str, str]
    forms: dict[str, list[str]]


def program_help() -> Help:
    return help_of(program())


@lru_cache
def help_of(path: str) -> Help:
    """The help of the program at a path; it is asked once."""
    text = call(["--help"], b"").stdout.decode()
    forms: dict[str, list[str]] = {}
    for form in FORM.findall(text):
        forms.setdefault(form.partition(" ")[0], []).append(form)
    return Help(dict(MEANING.findall(text)), forms)
