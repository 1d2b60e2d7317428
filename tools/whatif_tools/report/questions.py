"""The questions of a script: its commands that show something or were refused, each with its session, its scenario and its heading."""

from collections.abc import Sequence
from copy import deepcopy
from dataclasses import dataclass

from ..program import Reply
from ..scenarios import Scenario, Scenarios
from ..script import Command, lines_of

EDITS = ("set", "clear", "fill", "csv")
SHOWING = ("table", "compare", "show", "export", "changes", "formula")


@dataclass(frozen=True)
class Question:
    """A command that is drawn; `at` is its number among the commands, and `edits` how many were accepted before it."""

    at: int
    command: Command
    reply: Reply
    session: str
    scenario: str | None
    heading: str
    edits: int
    replaced: frozenset[str]
    """The cells that the scenario replaces."""

    @property
    def is_refused(self) -> bool:
        return self.reply.code is not None

    def behind_use(self, session: str, lines: Sequence[str]) -> list[str]:
        """Lines asked by another session in the same scenario, which leave everything as it was."""
        return [f"as {session}", f"use {self.scenario or ''}".rstrip(), *lines, "use", f"as {self.session}"]


@dataclass
class Course:
    """A script's questions in order, the sessions that it has made, and its scenarios where most is known of them."""

    questions: list[Question]
    end: Question | None
    """The last command, as if it were a question."""

    sessions: set[str]
    scenarios: dict[str, Scenario]
    looked: Question | None
    """Where the scenarios are looked at: the last `compare`, or else the end."""


def course_of(script: bytes, commands: Sequence[Command], replies: Sequence[Reply], first: int = 0) -> Course:
    """What a script asks, from the command of a number on."""
    known, edits = Scenarios(), 0
    course = Course([], None, {"main"}, {}, None)
    comments = headings(script, commands, replies)
    for at, (command, reply) in enumerate(zip(commands, replies)):
        if reply.code is None:
            known.accept(command)
            course.sessions.add(known.session)
            edits += command.name in EDITS
        is_drawn = reply.code is not None or command.name in SHOWING
        is_end = at + 1 == min(len(commands), len(replies))
        if not (is_drawn and at >= first or is_end):
            continue
        scenario = known.used.get(known.session)
        question = Question(at, command, reply, known.session, scenario, comments[at], edits, replaced_in(known, scenario))
        if is_drawn and at >= first:
            course.questions.append(question)
        if is_end:
            course.end = question
        if command.name == "compare" and reply.code is None or is_end and not course.scenarios:
            course.looked, course.scenarios = question, deepcopy(known.scenarios)
    return course


def replaced_in(known: Scenarios, name: str | None) -> frozenset[str]:
    """The cells that a scenario replaces, itself or by those on which it is based."""
    found: set[str] = set()
    while name is not None and name in known.scenarios:
        found.update(map(str, known.scenarios[name].replaced))
        name = known.scenarios[name].base
    return frozenset(found)


def headings(script: bytes, commands: Sequence[Command], replies: Sequence[Reply]) -> list[str]:
    """For each command the last comment since the question before it, if there is one and it isn't the title."""
    lines = lines_of(script)
    found: list[str] = []
    title, waiting, end = title_of(script), "", 0
    for command, reply in zip(commands, replies):
        waiting = last_comment(lines[end : command.line - 1]) or waiting
        found.append("" if waiting == title else waiting)
        if command.name in SHOWING or reply.code is not None:
            waiting = ""
        end = command.line + len(command.data)
    return found


def last_comment(lines: Sequence[bytes]) -> str:
    """The last comment, whose lines stand behind one another; `#!` is a mark for programs."""
    words: list[str] = []
    for line in reversed(lines):
        if line.startswith(b"#!"):
            continue
        if line.startswith(b"#"):
            words.append(line.decode(errors="replace").lstrip("#").strip())
        elif words:
            break
    return " ".join(word for word in reversed(words) if word)


def title_of(script: bytes) -> str:
    """The first comment line, if it stands before every command."""
    for line in lines_of(script):
        text = line.decode(errors="replace").removeprefix("\ufeff").strip()
        if text and not text.startswith("#"):
            return ""
        words = "" if text.startswith("#!") else text.lstrip("#").strip()
        if words:
            return words
    return ""
