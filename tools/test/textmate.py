"""Reads lines by a TextMate grammar, as far as that of whatif goes: matches, captures, includes, and begins that end with the line."""

import re
from dataclasses import dataclass
from typing import Any

Rule = dict[str, Any]


@dataclass(frozen=True)
class Piece:
    """A part of a line and its scope."""

    start: int
    scope: str
    text: str


def start_of(found: tuple[Rule, re.Match[str]]) -> int:
    return found[1].start()


@dataclass
class Grammar:
    rules: Rule

    def scopes(self, line: str) -> list[tuple[str, str]]:
        """The scopes of a line's parts, in order, each with the part."""
        pieces = sorted(self.read(line, 0, len(line), self.rules["patterns"]), key=lambda piece: piece.start)
        return [(piece.scope.removesuffix(".whatif"), piece.text) for piece in pieces]

    def read(self, line: str, place: int, end: int, patterns: list[Rule]) -> list[Piece]:
        """The pieces from a place on; the pattern that matches first from the left counts."""
        pieces: list[Piece] = []
        while place < end:
            found = self.first(line, place, end, self.flat(patterns))
            if found is None:
                break
            rule, match = found
            pieces += self.captured(line, match, rule)
            place = max(match.end(), place + 1)
            if "begin" in rule:
                pieces += self.read(line, match.end(), end, rule["patterns"])
                place = end
        return pieces

    def first(self, line: str, place: int, end: int, rules: list[Rule]) -> tuple[Rule, re.Match[str]] | None:
        matches = [(rule, re.compile(rule.get("match") or rule["begin"]).search(line, place, end)) for rule in rules]
        found = [(rule, match) for rule, match in matches if match is not None]
        return min(found, key=start_of) if found else None

    def captured(self, line: str, match: re.Match[str], rule: Rule) -> list[Piece]:
        pieces = [Piece(match.start(), rule["name"], match[0])] if "name" in rule else []
        for group, capture in {**rule.get("captures", {}), **rule.get("beginCaptures", {})}.items():
            if match[int(group)] is None:
                continue
            start, end = match.span(int(group))
            if "name" in capture:
                pieces.append(Piece(start, capture["name"], match[int(group)]))
            pieces += self.read(line, start, end, capture.get("patterns", []))
        return pieces

    def flat(self, patterns: list[Rule]) -> list[Rule]:
        """The patterns, with what they include in place."""
        rules: list[Rule] = []
        for pattern in patterns:
            rule = self.rules["repository"][pattern["include"].removeprefix("#")] if "include" in pattern else pattern
            is_list = "match" not in rule and "begin" not in rule
            rules += self.flat(rule["patterns"]) if is_list else [rule]
        return rules
