"""The command line of whatif-sweep, and what it says."""

from __future__ import annotations

import argparse
import sys
from collections.abc import Sequence
from contextlib import nullcontext
from pathlib import Path
from typing import BinaryIO, ContextManager, Optional

from .head import WrongSweep

ALL_RIGHT, SETS_FAILED, WRONG, NOT_WHOLE = 0, 1, 2, 3
USAGE = """whatif-sweep MODEL --out CELLS [options] < sets.csv > results.csv
       whatif-sweep --resume DIR [options] > results.csv"""
DESCRIPTION = """Runs many sets of parameters through one model, on the cores of a machine or on a cluster. The sets are CSV, a set on each line,
below a head: a name, and the addresses of the inputs. The results have the name and the outputs, in the order of the sets, and are
written when all is done, or not at all."""
STATUSES = """exit status: 0 all sets have results; 1 some sets failed, and are named; 2 the sweep is wrong, and nothing was run;
3 it isn't whole, and nothing was written; 130, 143 it was stopped. After 3, 130 and 143 --resume DIR goes on."""


class NotWhole(Exception):
    """The results aren't whole, and none are written."""


def say(text: str) -> None:
    print(f"whatif-sweep: {text}", file=sys.stderr, flush=True)


def parser() -> argparse.ArgumentParser:
    words = argparse.ArgumentParser(prog="whatif-sweep", usage=USAGE, description=DESCRIPTION, epilog=STATUSES)
    words.add_argument("model", nargs="?", type=Path, metavar="MODEL", help="the script of the model, without questions")

    files = words.add_argument_group("files")
    files.add_argument("--sets", type=Path, metavar="FILE", help="the sets; else standard input")
    files.add_argument("-o", "--output", type=Path, metavar="FILE", help="the results; else standard output. FILE is there when it is whole")
    files.add_argument("--failures", type=Path, metavar="FILE", help="sets without a result, with reasons (beside the results, or in DIR)")
    files.add_argument("--resume", type=Path, metavar="DIR", help="work in DIR, and do only what lacks there; made if it isn't there")
    files.add_argument("--again", action="store_true", help="with --resume: also chunks in which sets failed")

    sweep = words.add_argument_group("what is swept")
    sweep.add_argument("--out", metavar="CELLS", help="the outputs: B10,B11 or B10:B20")
    sweep.add_argument("--scenario", metavar="NAME", help="a scenario of the model; the sets' values go before its own")
    sweep.add_argument("--labels", type=int, default=1, metavar="N", help="how many columns are labels, the first of which is the name (1)")
    sweep.add_argument("--text", default="", metavar="CELLS", help="inputs that are texts, whatever they look like")
    sweep.add_argument("--repeated", action="store_true", help="names may stand twice")
    sweep.add_argument("--chunk", type=int, metavar="N", help="lines for a process (10 to 4000, so that there are 32 chunks or more)")

    engines = words.add_argument_group("who runs it")
    engines.add_argument("--engine", choices=["local", "dask", "slurm"], default="local")
    engines.add_argument("--jobs", type=int, metavar="N", help="processes of the local engine (cores)")
    engines.add_argument("--scheduler", metavar="ADDRESS", help="of Dask: tcp://host:8786")
    engines.add_argument("--executor", metavar="MODULE:CALLABLE", help="any executor, such as mpi4py.futures:MPIPoolExecutor")
    engines.add_argument("--parts", type=int, metavar="N", help="tasks of the Slurm array (64)")
    engines.add_argument("--sbatch", default="", metavar="OPTIONS", help="more options of sbatch: --sbatch='--time=1:00:00 --mem=200M'")
    engines.add_argument("--plan", action="store_true", help="only make DIR")
    engines.add_argument("--part", metavar="K/N", help="only do chunks K, K+N, .. of DIR, and write no results; for any engine")
    return words


def understood(arguments: Sequence[str]) -> argparse.Namespace:
    """The words; what needs a folder that stays must name one."""
    words = parser().parse_args(arguments)
    if words.resume is None and words.model is None and not words.part:
        raise WrongSweep("MODEL is missing; --help says more")
    if words.resume is None and (words.plan or words.part or words.engine == "slurm"):
        raise WrongSweep("--resume DIR names the folder to work in")
    if words.model is None and (words.out or words.scenario or words.sets):
        raise WrongSweep("the model is missing: whatif-sweep MODEL --out CELLS")
    if words.model and not words.out:
        raise WrongSweep("--out says which cells are wanted: --out B10,B11")
    places: list[Path] = [it for it in (words.output, words.failures) if it]
    for place in places:
        check_place(place)
    return words


def check_place(path: Path) -> None:
    """Where a file will be written at the end must do now."""
    if path.exists() and not path.is_file():
        raise WrongSweep(f"{path} is no plain file; > {path} writes there")
    if not path.resolve().parent.is_dir():
        raise WrongSweep(f"{path}: there is no such folder")


def model_of(words: argparse.Namespace) -> bytes:
    try:
        model: bytes = words.model.read_bytes()
    except OSError as error:
        raise WrongSweep(f"{words.model}: {error.strerror}") from None
    return model


def sets_of(words: argparse.Namespace) -> ContextManager[BinaryIO]:
    """The sets, to be read."""
    if words.sets:
        try:
            opened: BinaryIO = words.sets.open("rb")
        except OSError as error:
            raise WrongSweep(f"{words.sets}: {error.strerror}") from None
        return opened
    if sys.stdin is None or sys.stdin.isatty():
        raise WrongSweep("the sets come on standard input, or from --sets FILE")
    return nullcontext(sys.stdin.buffer)


def texts_of(words: argparse.Namespace) -> dict[str, str]:
    """The inputs that are texts, as kinds."""
    return {address.strip().upper(): "T" for address in words.text.split(",") if address.strip()}


def part_of(words: argparse.Namespace) -> Optional[tuple[int, int]]:
    """--part K/N as two numbers."""
    if not words.part:
        return None
    part, _, parts = words.part.partition("/")
    if not (part.isdecimal() and parts.isdecimal() and int(part) < int(parts)):
        raise WrongSweep(f"--part {words.part}: it is K/N, and K is 0 to N-1")
    return int(part), int(parts)
