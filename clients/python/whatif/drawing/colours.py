"""The colours of pages in light and dark: nine steps below and above zero, lines, and what is written on them.

Orange and blue are told apart by those who can't tell red from green.
"""

from __future__ import annotations

from dataclasses import dataclass

LEVELS = 9
LINES = 6
NEEDED = 4.5
"""The contrast of a text and what is behind it, at least."""


@dataclass(frozen=True)
class Theme:
    paper: str
    card: str
    ink: str
    soft: str
    rule: str
    link: str
    below: str
    above: str
    """The colours of the last steps."""

    error: str
    warning: str
    good: str
    lines: tuple[str, ...]
    on_dark: str = "#ffffff"
    on_light: str = "#0a0e12"


LIGHT = Theme(
    paper="#f6f8fa",
    card="#ffffff",
    ink="#17222d",
    soft="#55636f",
    rule="#d9e0e6",
    link="#1b5a99",
    below="#a84400",
    above="#15528f",
    error="#a3200d",
    warning="#fdf1ee",
    good="#edf6ef",
    lines=("#1b5a99", "#a84400", "#386b1d", "#74389a", "#775a00", "#0a6a70"),
)
DARK = Theme(
    paper="#0e1419",
    card="#161e26",
    ink="#e4eaf0",
    soft="#9fadba",
    rule="#2e3a45",
    link="#7db8f2",
    below="#f59a52",
    above="#6fb3f5",
    error="#ff9a85",
    warning="#34201c",
    good="#17291e",
    lines=("#7db8f2", "#f5a062", "#8fce6c", "#cf9bf0", "#dcc060", "#5fd0d6"),
)


def channels(colour: str) -> tuple[int, ...]:
    return tuple(int(colour[at : at + 2], 16) for at in (1, 3, 5))


def mixed(first: str, second: str, part: float) -> str:
    """A colour on the way from one to another."""
    return "#" + "".join(f"{round(one + (other - one) * part):02x}" for one, other in zip(channels(first), channels(second)))


def luminance(colour: str) -> float:
    """As WCAG 2 has it."""
    parts = [channel / 255 for channel in channels(colour)]
    red, green, blue = (part / 12.92 if part <= 0.04045 else ((part + 0.055) / 1.055) ** 2.4 for part in parts)
    return float(0.2126 * red + 0.7152 * green + 0.0722 * blue)


def contrast(one: str, other: str) -> float:
    """From 1 to 21, as WCAG 2 has it.

    >>> contrast("#ffffff", "#000000")
    21.0
    """
    darker, lighter = sorted((luminance(one), luminance(other)))
    return (lighter + 0.05) / (darker + 0.05)


def step(theme: Theme, is_above: bool, level: int) -> tuple[str, str]:
    """The colour of a step, and that of what is written on it."""
    ground = mixed(theme.card, theme.above if is_above else theme.below, 0.06 + 0.94 * level / LEVELS)
    return ground, max(theme.on_dark, theme.on_light, key=lambda ink: contrast(ink, ground))


def rules(theme: Theme) -> str:
    """The theme as custom properties and classes of CSS."""
    names = ("paper", "card", "ink", "soft", "rule", "link", "below", "above", "error", "warning", "good")
    variables = [f"--{name}:{getattr(theme, name)}" for name in names] + [f"--line{i}:{line}" for i, line in enumerate(theme.lines)]
    steps = []
    for is_above, letter in ((True, "a"), (False, "b")):
        for level in range(1, LEVELS + 1):
            ground, ink = step(theme, is_above, level)
            steps.append(f".whatif .{letter}{level}{{background:{ground};color:{ink};fill:{ground}}}")
    return f".whatif{{{';'.join(variables)}}}" + "".join(steps)
