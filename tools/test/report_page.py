"""Reads a page of whatif-report back: its parts with their headings, tables and drawings."""

from __future__ import annotations

import re
from dataclasses import dataclass
from xml.etree import ElementTree

Node = ElementTree.Element


def words(node: Node) -> str:
    return " ".join("".join(node.itertext()).split())


@dataclass(frozen=True)
class Block:
    """A part of the page, with what it says of its command."""

    node: Node

    @property
    def head(self) -> str:
        found = self.node.find("h2")
        return "" if found is None else words(found)

    @property
    def about(self) -> str:
        found = self.node.find("p[@class='meta']")
        return "" if found is None else words(found)

    @property
    def kind(self) -> str:
        return self.node.get("class", "")

    @property
    def text(self) -> str:
        return words(self.node)

    def heads(self) -> list[str]:
        return [words(found) for found in self.node.iter("h3")]

    def tables(self) -> list[list[list[str]]]:
        """The rows of each table: heads as they are read, entries with the exact number that is the last word of their title."""
        return [[[exact(cell) for cell in line if cell.get("class") != "bar"] for line in table.iter("tr")] for table in self.node.iter("table")]

    def captions(self) -> list[str]:
        return [words(found) for found in self.node.iter("caption")]

    def errors(self) -> list[str]:
        return [words(found) for found in self.node.iter("p") if found.get("class") == "e"]


def exact(cell: Node) -> str:
    title = cell.get("title", "").split(" ")[-1]
    return title if title and cell.tag == "td" else words(cell)


def blocks(page: str) -> list[Block]:
    """The parts of a page, whose body must be well-formed."""
    found = re.search("<body.*</body>", re.sub("<script>.*</script>", "", page, flags=re.DOTALL), re.DOTALL)
    assert found is not None
    return [Block(node) for node in ElementTree.fromstring(found[0]).iter("section")]
