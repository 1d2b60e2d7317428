"""Names of cells, as comments `# name price B2` have them: whatif-import writes these."""

import re

from .sheet import Address

NAME = re.compile(rb"# name (\S+) ([A-Z]{1,3}[1-9][0-9]{0,6})\r?")


def names_in(script: bytes) -> dict[Address, str]:
    """The cells that have a name of their own."""
    found = (NAME.fullmatch(line) for line in script.split(b"\n") if line.startswith(b"# name "))
    named = ((Address.parse(match[2].decode()), match[1].decode(errors="replace")) for match in found if match is not None)
    return {address: name for address, name in named if address is not None}


def labelled(address: Address, names: dict[Address, str]) -> str:
    """An address, and its name where it has one."""
    return f"{address} ({names[address]})" if address in names else str(address)
