"""A script and its answers as a page."""

import hashlib
import tempfile
from collections.abc import Sequence
from dataclasses import dataclass, replace
from fractions import Fraction
from pathlib import Path

from whatif.drawing import Part, joined, report

from ..check import Check
from ..finding import Finding
from ..program import program
from ..script import commands, lines_of
from .blocks import Blocks, findings_part
from .listing import listing
from .probes import Source
from .questions import course_of, title_of
from .survey import Survey

ABOUT = "All numbers are exact. Where one is drawn rounded, the exact one is shown under the pointer, and copied by \u201ccopy exact\u201d."


@dataclass(frozen=True)
class Asked:
    """What the page is to show."""

    script: Path
    model: Path | None = None
    by: Fraction = Fraction(1, 10)
    goals: Sequence[str] | None = None
    places: int | None = None
    date: str = ""


@dataclass(frozen=True)
class Loaded:
    """A script behind the one that is loaded first, and how many lines and commands that has."""

    text: bytes
    lines: int
    commands: int

    @classmethod
    def of(cls, asked: Asked) -> "Loaded":
        script = asked.script.read_bytes()
        if asked.model is None:
            return cls(script, 0, 0)
        model = asked.model.read_bytes()
        model += b"" if model.endswith(b"\n") or not model else b"\n"
        return cls(model + script, len(lines_of(model)), len(list(commands(lines_of(model)))))


@dataclass(frozen=True)
class Run:
    """What was run and answered, and what was found in the model that was loaded first and in the script."""

    loaded: Loaded
    check: Check
    in_model: list[Finding]
    in_script: list[Finding]

    @classmethod
    def of(cls, asked: Asked) -> "Run":
        loaded = Loaded.of(asked)
        if asked.model is None:
            check = Check.of(asked.script)
            return cls(loaded, check, [], check.findings())
        with tempfile.TemporaryDirectory() as folder:
            path = Path(folder) / asked.script.name
            path.write_bytes(loaded.text)
            check = Check.of(path)
            found = check.findings()
        in_script = [replace(finding, line=finding.line - loaded.lines) for finding in found if finding.line > loaded.lines]
        return cls(loaded, check, [finding for finding in found if finding.line <= loaded.lines], in_script)


def page(asked: Asked) -> tuple[str, int]:
    """The page, and how much was found."""
    run = Run.of(asked)
    source = Source(run.loaded.text, run.check.commands, run.check.answer.replies)
    course = course_of(run.loaded.text, run.check.commands, run.check.answer.replies, run.loaded.commands)
    survey = Survey(source, course, asked.by, asked.goals)
    survey.take()
    blocks = Blocks(survey, run.in_script, asked.by, asked.places, run.loaded.lines)
    script = asked.script.read_bytes()
    listings = [listing(script, list(commands(lines_of(script))), run.in_script)]
    if asked.model is not None:
        model = asked.model.read_bytes()
        listings.append(listing(model, list(commands(lines_of(model))), run.in_model, f"The model {asked.model.name}", "M"))
    parts = [findings_part(run.in_script, run.in_model), *blocks.parts(), Part("", joined(listings))]
    about = " ".join([ABOUT, *survey.remarks])
    return report(title_of(script) or asked.script.stem, parts, about=about, sources=sources(asked)), len(run.in_script) + len(run.in_model)


def sources(asked: Asked) -> list[tuple[str, str]]:
    """What the page is made of, by the SHA-256 of each file."""
    files = [("script", asked.script), *([("model", asked.model)] if asked.model else []), ("program", Path(program()))]
    found = [(f"{what} {path.name}", f"SHA-256 {hashlib.sha256(path.read_bytes()).hexdigest()}") for what, path in files]
    return [*found, *([("date", asked.date)] if asked.date else [])]
