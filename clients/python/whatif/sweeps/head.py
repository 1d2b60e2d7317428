"""The head of the sets: which columns are labels, and the address of each input."""

from __future__ import annotations

import re
from dataclasses import dataclass

from .chunk.lines import fields_of

BYTE_ORDER_MARK = b"\xef\xbb\xbf"


class WrongSweep(Exception):
    """A sweep that can't begin: what is wrong, and what to do."""


@dataclass(frozen=True)
class Head:
    """The first line of the sets: as it stands, the names of the labels, and the addresses of the inputs."""

    line: bytes
    labels: tuple[str, ...]
    inputs: tuple[str, ...]

    @staticmethod
    def of(line: bytes, labels: int) -> Head:
        """The head in a line, whose first fields are labels.

        >>> Head.of(b"name,B1,b3\\r\\n", 1).inputs
        ('B1', 'B3')
        """
        if b"\0" in line or line.startswith((b"\xff\xfe", b"\xfe\xff")):
            raise WrongSweep("the sets are UTF-16: save them as UTF-8, or iconv -f UTF-16 -t UTF-8")
        try:
            names = fields_of(line.removeprefix(BYTE_ORDER_MARK).rstrip(b"\n").removesuffix(b"\r"))
        except ValueError as error:
            raise WrongSweep(f"the head of the sets: {error}") from None
        inputs = tuple(name.upper() for name in names[labels:])
        for at, name in enumerate(names[:labels], 1):
            if labels == 1 and is_address(name):
                raise WrongSweep(f"column {at} of the sets, {name!r}, is an address, and the first column is the name: --labels 0 if there is none")
        for at, name in enumerate(names[labels:], labels + 1):
            if not is_address(name):
                cure = f"--labels {at} if it is a label" if at == labels + 1 else "labels stand before all addresses"
                parted = "; are the fields parted by commas?" if len(names) == 1 else ""
                raise WrongSweep(f"column {at} of the sets, {name!r}, is no address: {cure}{parted}")
        if not inputs:
            raise WrongSweep("the sets have no column with an address in its head, as in name,B1,B3; are the fields parted by commas?")
        return Head(line, tuple(names[:labels]), inputs_once(inputs))


def inputs_once(inputs: tuple[str, ...]) -> tuple[str, ...]:
    for at, address in enumerate(inputs):
        if address in inputs[:at]:
            raise WrongSweep(f"{address} stands twice in the head of the sets")
    return inputs


def is_address(name: str) -> bool:
    """Whether it is an address of a cell, within the sheet or not."""
    return re.fullmatch(r"[A-Za-z]+[1-9][0-9]*", name) is not None
