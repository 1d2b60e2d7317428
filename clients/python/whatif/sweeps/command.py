"""whatif-sweep: runs many sets of parameters through one model, on the cores of a machine or on a cluster."""

from __future__ import annotations

import argparse
import shlex
import shutil
import signal
import sys
import tempfile
from collections.abc import Sequence
from pathlib import Path

from .copying import parted_from_head
from .folder import Folder
from .head import Head, WrongSweep
from .plan import Asked, found_program, planned
from .results import finish
from .running import run
from .words import ALL_RIGHT, NOT_WHOLE, SETS_FAILED, WRONG, NotWhole, model_of, part_of, say, sets_of, texts_of, understood


class Stopped(KeyboardInterrupt):
    """A signal that asks to end."""


def stop(number: int, _frame: object) -> None:
    raise Stopped(number)


def opened(words: argparse.Namespace, path: Path) -> Folder:
    """The folder, made if it isn't there; it must be that of this sweep."""
    if words.model is None:
        return Folder(path)
    model = model_of(words)
    with sets_of(words) as sets:
        head = Head.of(parted_from_head(sets), words.labels)
        asked = Asked(words.model.name, model, words.labels, head.inputs, words.out.split(","), words.scenario, texts_of(words))
        plan = planned(found_program(), asked)
        for note in plan.notes:
            say(note)
        if not Folder.is_there(path):
            return Folder.made(path, plan, head, sets, bool(words.labels) and not words.repeated, words.chunk)
        folder = Folder(path)
        other = folder.differs(plan, head, sets)
    if other:
        raise WrongSweep(f"{path} is another sweep: it differs in {other}. Name another folder, or remove this one")
    return folder


def work(words: argparse.Namespace, path: Path) -> int:
    """Does what was asked for, in the folder at this path; the exit status."""
    folder = opened(words, path)
    part = part_of(words)
    if words.plan:
        say(f"{path}: {folder.count:,} sets in {len(folder.chunks)} chunks; do --part 0/N to N-1/N of it, and then --resume {path}")
        return ALL_RIGHT
    if part:
        mine = folder.chunks[part[0] :: part[1]]
        run(words, folder, folder.lacking(mine))
        if folder.lacking(mine):
            raise NotWhole(f"part {words.part} isn't whole")
        return ALL_RIGHT
    lacking = folder.lacking(again=words.again)
    if words.resume and len(lacking) < len(folder.chunks):
        say(f"{len(folder.chunks) - len(lacking)} of {len(folder.chunks)} chunks are done")
    if lacking:
        run(words, folder, lacking)
    return finish(words, folder)


def go_on(words: argparse.Namespace, path: Path) -> str:
    """The command that goes on."""
    if not Folder.is_there(path):
        return "nothing is kept"
    kept = ["--resume", str(path)]
    for name in ("engine", "scheduler", "executor", "jobs", "parts", "sbatch", "part", "output", "failures"):
        value = getattr(words, name)
        if value and value != "local":
            kept += [f"--{name}={value}"]
    return f"what is done is kept: whatif-sweep {shlex.join(kept)} goes on"


def worked(words: argparse.Namespace, path: Path) -> int:
    """The exit status, with a sentence for what went wrong."""
    try:
        return work(words, path)
    except WrongSweep as error:
        say(str(error))
        return WRONG
    except (NotWhole, OSError, RuntimeError) as error:
        what = f"{error.filename or path}: {error.strerror}" if isinstance(error, OSError) and error.strerror else error
        say(f"{what}. {go_on(words, path)}")
        return NOT_WHOLE
    except KeyboardInterrupt as stopped:
        say(f"stopped. {go_on(words, path)}")
        return 128 + int(stopped.args[0] if isinstance(stopped, Stopped) else signal.SIGINT)


def main(arguments: Sequence[str]) -> int:
    signal.signal(signal.SIGTERM, stop)
    try:
        words = understood(arguments)
        path = words.resume or Path(tempfile.mkdtemp(prefix="whatif-sweep-", dir="."))
    except WrongSweep as error:
        say(str(error))
        return WRONG
    except OSError as error:
        say(f"no folder can be made here: {error.strerror}; --resume DIR names another")
        return WRONG
    status = worked(words, path)
    if words.resume is None and (status in (ALL_RIGHT, SETS_FAILED, WRONG) or not Folder.is_there(path)):
        shutil.rmtree(path, ignore_errors=True)
    return status


def command() -> None:
    """The command whatif-sweep of an installed package."""
    sys.exit(main(sys.argv[1:]))
