"""Asks what is needed at each question of a script: the names of its cells, its inputs' values, formulas, and what moves a result."""

from collections.abc import Iterator, Sequence
from fractions import Fraction

from whatif.drawing import Label, State

from ..sheet import Address
from .inputs import Sheet
from .probes import Source
from .questions import Course, Question
from .seen import Changes, Formulas, Picture, Seen, changes_in, seen_at
from .sensitivity import plan

NAME = "whatif_report"
MOST_SESSIONS = 64
MOST_QUESTIONS = 400
"""So many are drawn."""

MOST_FORMULAS = 20_000
MOST_SHOWN = 2_000
MOST_ASKED = 200_000
"""No more formulas are asked for: of a sheet, of a part that is shown, and in all."""

MOST_TORNADOS = 6
MOST_SIDE_BY_SIDE = 40


class Survey:
    """What is seen at each question. It is asked by a session and a scenario whose names the script doesn't have."""

    def __init__(self, source: Source, course: Course, by: Fraction, goals: Sequence[str] | None) -> None:
        """`goals` are the cells whose tornado is asked for; None are those that tables ask for."""
        self.source, self.course, self.by, self.goals = source, course, by, goals
        self.name = free_name(source.script)
        answered = [question for question in course.questions if not question.is_refused][:MOST_QUESTIONS]
        is_end_left = course.end is not None and all(question.at != course.end.at for question in answered)
        self.places = [*answered, *([course.end] if is_end_left and course.end else [])]
        self.seen: dict[int, Seen] = {}
        self.states: list[State] = []
        self.side_by_side: dict[str, str] = {}
        """The cells that are shown in all scenarios, with their names."""

        self.remarks: dict[str, None] = {}
        """What can't be shown, each said once."""

    def take(self) -> None:
        if len(self.course.sessions) >= MOST_SESSIONS:
            self.remarks["The script has made 64 sessions, so no other one could ask for names, inputs and scenarios."] = None
            return
        changes = self.pictures()
        self.read(changes, self.formulas(changes))
        self.ask_plans()
        self.ask_scenarios()

    def pictures(self) -> dict[int, Changes]:
        """For each place what differs from the one before."""
        replies = self.source.ask({place.at: place.behind_use(self.name, ["changes"]) for place in self.places})
        return {at: changes_in(lines[2]) for at, lines in replies.items()}

    def walk(self, changes: dict[int, Changes]) -> Iterator[tuple[Question, Picture]]:
        """The places in order, each with what all cells show there."""
        picture = Picture()
        for place in self.places:
            if place.at in changes:
                picture.take(changes[place.at])
                yield place, picture

    def goals_at(self, place: Question) -> list[str]:
        """The cells whose tornado is drawn at a place: that of a table, or at the end those of which no table asks."""
        found = [place.command.words[1].upper()] if is_table(place) else []
        if self.goals is None:
            return found
        asked = {other.command.words[1].upper() for other in self.places if is_table(other)}
        left = [goal for goal in self.goals if goal not in asked] if place is self.places[-1] else []
        return [goal for goal in found if goal in self.goals] + left

    def formulas(self, changes: dict[int, Changes]) -> dict[int, Formulas]:
        """The formulas by the number of edits before: all where a tornado needs them, else those of the cells that are shown."""
        whole = {place.edits for place in self.places if self.goals_at(place)}
        wanted: dict[int, list[Address]] = {}
        edits: dict[int, int] = {}
        count = 0
        for place, picture in self.walk(changes):
            asked: list[Address] = []
            if place.edits in whole:
                asked = list(picture.cells) if place.edits not in edits.values() and len(picture.cells) <= MOST_FORMULAS else []
            elif place.command.name in ("show", "export") and not place.is_refused:
                inside = picture.inside(place.command.words)
                asked = inside if len(inside) <= MOST_SHOWN else []
            if asked and count + len(asked) <= MOST_ASKED:
                count += len(asked)
                wanted[place.at], edits[place.at] = asked, place.edits
        found: dict[int, Formulas] = {}
        for at, replies in self.source.ask({at: [f"formula {cell}" for cell in cells] for at, cells in wanted.items()}).items():
            contents = zip(wanted[at], (reply.records()[0][1] for reply in replies))
            found.setdefault(edits[at], {}).update({cell: content for cell, content in contents if content.startswith(("=", "of:="))})
        return found

    def read(self, changes: dict[int, Changes], formulas: dict[int, Formulas]) -> None:
        looks: dict[str, dict[str, str]] = {}
        planned: set[tuple[str, str | None]] = set()
        for place, picture in self.walk(changes):
            known = formulas.get(place.edits, {})
            seen = self.seen[place.at] = seen_at(place, picture, known)
            if place is self.course.looked:
                self.side_by_side = {cell: picture.label(cell) for cell in self.asked_cells()}
            if place.command.name == "changes":
                shown = looks.setdefault(place.session, {})
                seen.before = dict(shown)
                shown.update({record[0]: record[2] for record in place.reply.records()})
            for goal in self.goals_at(place):
                if len(picture.cells) > MOST_FORMULAS:
                    self.remarks[f"The sheet has more than {MOST_FORMULAS:,} cells, so what moves a result isn't asked."] = None
                elif (goal, place.scenario) not in planned and len(planned) == MOST_TORNADOS:
                    self.remarks[f"What moves a result is told of the first {MOST_TORNADOS} alone."] = None
                elif (goal, place.scenario) not in planned:
                    planned.add((goal, place.scenario))
                    found = plan(Sheet(picture.cells, known), Label(goal, picture.label(goal)), self.by, place.replaced)
                    seen.plans += [found] if found else []

    def ask_plans(self) -> None:
        places = {place.at: place for place in self.places if place.at in self.seen and self.seen[place.at].plans}
        behind: dict[int, list[str]] = {}
        for at, place in places.items():
            lines = [line for known in self.seen[at].plans for line in known.lines(self.name, place.scenario)]
            behind[at] = place.behind_use(self.name, lines)
        for at, replies in self.source.ask(behind).items():
            start = 2
            for known in self.seen[at].plans:
                end = start + len(known.lines(self.name, places[at].scenario))
                bars = known.bars(replies[start:end])
                if bars is None:
                    self.remarks["What moves a result couldn't be asked: the script leaves no room for another scenario."] = None
                self.seen[at].bars.append(bars or [])
                start = end

    def ask_scenarios(self) -> None:
        """What the cells that were asked for show in every scenario."""
        names, cells, place = list(self.course.scenarios), list(self.side_by_side), self.course.looked
        if place is None or not names or not cells:
            return
        lines = [f"as {self.name}"]
        for name in ["", *names]:
            lines += [f"use {name}".rstrip(), *(f"show {at}" for at in cells)]
        replies = self.source.ask({place.at: [*lines, "use", f"as {place.session}"]}).get(place.at, [])
        if not replies or any(reply.code is not None for reply in replies):
            return
        texts = [reply.records()[0][0] for reply in replies if reply.lines]
        for n, name in enumerate(["-", *names]):
            values = dict(zip(cells, texts[n * len(cells) : (n + 1) * len(cells)]))
            self.states.append(State(name, values, "" if name == "-" else self.course.scenarios[name].base or ""))

    def asked_cells(self) -> list[str]:
        """The cells of which a table or a comparison has told something, up to where the scenarios are looked at."""
        found: dict[str, None] = {}
        for place in self.places:
            if self.course.looked is not None and place.at <= self.course.looked.at:
                if is_table(place):
                    found[place.command.words[1].upper()] = None
                elif place.command.name == "compare":
                    found.update(dict.fromkeys(record[0] for record in place.reply.records()))
        return list(found)[:MOST_SIDE_BY_SIDE]


def is_table(place: Question) -> bool:
    return place.command.name == "table" and not place.is_refused


def free_name(script: bytes) -> str:
    """A name that stands nowhere in the script."""
    name, count = NAME, 1
    while name.encode() in script:
        name, count = f"{NAME}_{count}", count + 1
    return name
