"""The scenarios and sessions of a script: which cells the one in use replaces, and names that are nearly those of others."""

from collections.abc import Iterator
from dataclasses import dataclass, field

from .finding import Finding, Kind
from .script import Command
from .sheet import Address


@dataclass
class Scenario:
    base: str | None = None
    replaced: set[Address] = field(default_factory=set)


@dataclass
class Scenarios:
    """The scenarios and sessions that accepted commands have made so far."""

    scenarios: dict[str, Scenario] = field(default_factory=dict)
    used: dict[str, str] = field(default_factory=dict)
    """The scenario of each session that uses one."""

    session: str = "main"
    sessions: set[str] = field(default_factory=lambda: {"main"})

    @property
    def in_use(self) -> str | None:
        """The scenario that the session uses."""
        return self.used.get(self.session)

    def accept(self, command: Command) -> None:
        words = command.words
        if words[0] == "as":
            self.session = words[1]
            self.sessions.add(words[1])
        elif words[0] == "use":
            self.use(words[1:])
        elif words[0] == "drop":
            self.scenarios.pop(words[1], None)
        elif words[0] == "base":
            self.scenarios[words[1]].base = words[2] if len(words) > 2 else None
        elif words[0] == "scenario":
            self.replace(command)

    def use(self, names: list[str]) -> None:
        self.used.pop(self.session, None)
        if names:
            self.used[self.session] = names[0]

    def replace(self, command: Command) -> None:
        """Takes a replacement in, or away where there is no content."""
        scenario = self.scenarios.setdefault(command.words[1], Scenario())
        address = Address.parse(command.words[2])
        if address is not None and command.content is not None:
            scenario.replaced.add(address)
        elif address is not None:
            scenario.replaced.discard(address)

    def replacing(self, cell: Address) -> str | None:
        """The scenario that the session uses, where it replaces the cell, itself or by one on which it is based."""
        name = used = self.used.get(self.session)
        while name is not None and name in self.scenarios:
            if cell in self.scenarios[name].replaced:
                return used
            name = self.scenarios[name].base
        return None

    def unknown(self, command: Command) -> str:
        """The first scenario in a command that isn't there."""
        count = 2 if command.name in ("base", "compare") else 1
        names = [name for name in command.words[1 : 1 + count] if name != "-"]
        return next((name for name in names if name not in self.scenarios), command.words[-1])


def hidden(command: Command, scenarios: Scenarios) -> Iterator[Finding]:
    """An edit that doesn't show, since the scenario in use replaces its cell."""
    address = Address.parse(command.words[1]) if command.name == "set" else None
    name = None if address is None else scenarios.replacing(address)
    if name is not None:
        message = f"{address} goes on showing its replacement in the scenario {name}: write use first, or scenario {name} {address} {command.content}"
        yield Finding(command.line, 1, Kind.REPLACED, message, command.text)


def new_names(command: Command, scenarios: Scenarios, asked_for: set[str]) -> Iterator[Finding]:
    """A scenario or a session that a command makes, though its name is nearly that of another.

    `asked_for` are the scenarios that a command looks at: two of these aren't slips of one another.
    """
    if command.name not in ("scenario", "as"):
        return
    name = command.words[1]
    known = scenarios.sessions if command.name == "as" else set(scenarios.scenarios)
    if name in known:
        return
    what = "session" if command.name == "as" else "scenario"
    same = sorted(other for other in known if other.lower() == name.lower())
    unasked = known if name not in asked_for else known - asked_for
    near = [] if command.name == "as" else sorted(other for other in unasked if is_slip(name, other))
    for other in (same or near)[:1]:
        left = f"and nothing asks for {other}" if name in asked_for else "which nothing asks for"
        why = "capitals count, and this makes another one" if same else f"this makes a new one, {left}"
        message = f"there is a {what} {other}, and {why}: is {other} meant?"
        yield Finding(command.line, command.word_place(name) + 1, Kind.NEW_NAME, message, command.text)


def is_slip(name: str, other: str) -> bool:
    """Whether one name is another with a letter too many, too few, another or two swapped, and that isn't its first letter or its last."""
    if min(len(name), len(other)) < 5 or name[0] != other[0]:
        return False
    at = next((place for place, pair in enumerate(zip(name, other)) if pair[0] != pair[1]), min(len(name), len(other)))
    if not name[at : at + 1].isalpha() and not other[at : at + 1].isalpha():
        return False
    one, two = name[at:], other[at:]
    is_inside = len(one) > 1 and len(two) > 1
    is_doubled = one == two + name[at - 1] or two == one + other[at - 1]
    swapped = one[1:2] + one[:1] + one[2:]
    return is_doubled or one[1:] == two or two[1:] == one or is_inside and (one[1:] == two[1:] or swapped == two)


def names_asked_for(commands: list[Command]) -> set[str]:
    """The scenarios that a command looks at or rests another one on."""
    return {name for command in commands if command.name in ("use", "base", "compare", "drop") for name in command.words[1:]}
