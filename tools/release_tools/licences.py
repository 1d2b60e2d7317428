"""Whose code is in the program, and under which licence."""

import re
from pathlib import Path

OWN = """whatif {version}

whatif itself: {licence}
"""
NONE_CHOSEN = "its owner has chosen no licence yet, and the repository has no file LICENSE. Ask the owner before you pass these packages on."
LIBRARIES = """
The program holds code of these libraries of the toolchain, by which it was proved and built:
"""
NONE_NAMED = "the toolchain names no licence of its own for it"


def own_crates(top: Path) -> dict[str, list[str]]:
    """The crates of crates.txt, each with what it uses."""
    lines = [it for it in (top / "crates.txt").read_text().splitlines() if it and not it.startswith("#")]
    return {line.partition(":")[0].split()[0]: line.partition(":")[2].split() for line in lines}


def below(crate: str, uses: dict[str, list[str]]) -> set[str]:
    """All that a crate uses, and what that uses."""
    found: set[str] = set()
    left = [crate]
    while left:
        for name in uses.get(left.pop(), []):
            if name not in found:
                found.add(name)
                left.append(name)
    return found


def libraries(top: Path, kit: Path) -> list[str]:
    """The toolchain's libraries whose code may be in the program: those that its crates use, and those that these use."""
    uses = own_crates(top)
    crates = set(uses)
    found: set[str] = set()
    left = {"std", *(below("whatif", uses) - crates)}
    while left:
        name = left.pop()
        found.add(name)
        form = kit / "rlibs" / f"{name}.rlib" / "format"
        left |= set(re.findall(r"^dep (\w+)$", form.read_text(), re.MULTILINE)) - found
    return sorted(found)


def texts_of(library: Path) -> list[Path]:
    return sorted(it for it in library.glob("*") if re.match(r"(UN)?LICEN[CS]E|COPYING|NOTICE", it.name) and it.is_file())


def copyright_of(top: Path, kit: Path, version: str) -> str:
    """What the packages' file `copyright` says."""
    own = [it.read_text().strip() for it in sorted(top.glob("LICENSE*"))]
    parts = [OWN.format(version=version, licence="\n\n" + "\n\n".join(own) if own else NONE_CHOSEN), LIBRARIES]
    for name in libraries(top, kit):
        texts = texts_of(kit / "rattle" / name)
        parts += [f"\n== {name}: {it.name}\n\n{it.read_text().strip()}\n" for it in texts] or [f"\n== {name}: {NONE_NAMED}\n"]
    return "".join(parts)
