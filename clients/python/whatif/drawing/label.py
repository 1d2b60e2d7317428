"""Cells with their names."""

from __future__ import annotations

from dataclasses import dataclass
from typing import Union

from .markup import Markup, joined, tag


@dataclass(frozen=True)
class Label:
    """A cell's address, and the words that name it if there are any."""

    address: str
    words: str = ""

    @property
    def text(self) -> str:
        return self.words or self.address

    def html(self) -> Markup:
        """The words and, smaller, the address."""
        return joined([self.words, " ", tag("small", self.address)]) if self.words else tag("small", self.address)


Named = Union[Label, str]


def label(named: Named) -> Label:
    return named if isinstance(named, Label) else Label(named)
