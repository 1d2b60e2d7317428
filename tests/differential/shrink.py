"""Makes a script smaller for as long as something holds of it: first line by line, then by words and parts of formulas."""

import re
import time
from collections.abc import Callable, Iterator

Holds = Callable[[bytes], bool]
TOKENS = re.compile(rb'"(?:[^"]|"")*"|\[[^\]\n]*\]|[A-Za-z0-9_.\x80-\xff]+|[ ]+|.', re.DOTALL)
SECONDS = 30


class Budget:
    """Ends the search after some seconds, so that a slow script doesn't hold up the rest."""

    def __init__(self, seconds: float) -> None:
        self.end = time.monotonic() + seconds

    def is_spent(self) -> bool:
        return time.monotonic() > self.end


def shrunk(script: bytes, holds: Holds, seconds: float = SECONDS) -> bytes:
    """A smaller script of which the same holds."""
    budget = Budget(seconds)
    before = b""
    while script != before and not budget.is_spent():
        before = script
        script = b"".join(fewer(lines_of(script), holds, budget))
        script = simpler_lines(script, holds, budget)
    return script


def lines_of(script: bytes) -> list[bytes]:
    return re.findall(rb"[^\n]*\n|[^\n]+", script)


def fewer(parts: list[bytes], holds: Holds, budget: Budget) -> list[bytes]:
    """Takes away runs of parts: long ones first, then shorter ones."""
    size = len(parts)
    while size > 0:
        at = 0
        while at < len(parts):
            left = parts[:at] + parts[at + size :]
            if budget.is_spent():
                return parts
            if len(left) < len(parts) and holds(b"".join(left)):
                parts = left
            else:
                at += size
        size //= 2
    return parts


def simpler_lines(script: bytes, holds: Holds, budget: Budget) -> bytes:
    lines = lines_of(script)
    for at in range(len(lines)):
        before, after = b"".join(lines[:at]), b"".join(lines[at + 1 :])
        lines[at] = simpler(lines[at], lambda line: holds(before + line + after), budget)
    shorter = drop_data_lines(lines, holds, budget)
    return b"".join(shorter)


def simpler(line: bytes, holds: Holds, budget: Budget) -> bytes:
    """A line with fewer words and simpler formulas."""
    tokens = fewer(TOKENS.findall(line), holds, budget)
    found = True
    while found:
        found = False
        for smaller in replaced(tokens):
            if budget.is_spent():
                return b"".join(tokens)
            if holds(b"".join(smaller)):
                tokens, found = smaller, True
                break
    return b"".join(fewer(tokens, holds, budget))


def replaced(tokens: list[bytes]) -> Iterator[list[bytes]]:
    """The tokens with a call or parentheses replaced by one of its parts."""
    for at, token in enumerate(tokens):
        if token == b"(":
            start = at - 1 if at and re.fullmatch(rb"[A-Za-z_][A-Za-z0-9_.]*", tokens[at - 1]) else at
            parts, end = parts_in(tokens, at)
            if end < len(tokens):
                for part in parts:
                    yield tokens[:start] + part + tokens[end + 1 :]
                yield tokens[:start] + [b"1"] + tokens[end + 1 :]


def parts_in(tokens: list[bytes], start: int) -> tuple[list[list[bytes]], int]:
    """What stands between parentheses, cut at the semicolons, and where they are closed."""
    parts: list[list[bytes]] = [[]]
    depth = 1
    for at in range(start + 1, len(tokens)):
        depth += (tokens[at] == b"(") - (tokens[at] == b")")
        if depth == 0:
            return parts, at
        if depth == 1 and tokens[at] == b";":
            parts.append([])
        else:
            parts[-1].append(tokens[at])
    return parts, len(tokens)


def drop_data_lines(lines: list[bytes], holds: Holds, budget: Budget) -> list[bytes]:
    """Takes away data lines of a `csv`, and counts them less."""
    for at, line in enumerate(lines):
        asked = re.fullmatch(rb"((?:force )?csv [^ \n]+ )([0-9]+)\n", line)
        count = int(asked[2]) if asked else 0
        place = at + count
        while asked and place > at and count > 0 and not budget.is_spent():
            smaller = lines[:at] + [asked[1] + str(count - 1).encode() + b"\n"] + lines[at + 1 : place] + lines[place + 1 :]
            if holds(b"".join(smaller)):
                lines, count = smaller, count - 1
            place -= 1
    return lines
