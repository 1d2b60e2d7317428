"""What is packed, as it lies below /usr: the program, the tools, the client for Python, examples, the users' pages and manual pages."""

import os
import shutil
import subprocess
from dataclasses import dataclass
from pathlib import Path

from release_tools import pages
from release_tools.elf import glibc, logic
from release_tools.packages import compressed

# Pages for who works on the repository itself, and what tests and draws the examples there.
FOR_DEVELOPERS = ("BENCH", "DECISIONS", "DEFINITIONS", "FOLLOWED", "GATE", "MAP", "PLANS", "PROVING", "index")
OF_THE_REPOSITORY = ("examples/__init__.py", "examples/tests/", "examples/draw/", "examples/run", "examples/stored_run", "examples/.gitignore",
                     "clients/python/test/")
OWN_TOOL = "release"
SECONDS = 60
BUILD = """whatif {version}, of commit {commit}

bin/whatif was proved and built by {toolchain},
as its section .comment says (readelf -p .comment whatif): rattle logic={logic}
It is for x86-64 Linux with glibc {glibc}, and needs nothing else. The tools and the client beside it need Python 3.

sha256 of bin/whatif: {sum}

To compare: with that toolchain, in a clone of that commit, ./prove proves all that the program rests on and builds it;
    sha256sum out/proved/whatif
then writes the same sum. Of the packages themselves: tools/release {version} FOLDER, and SHA256SUMS.
"""


class NoHelp(Exception):
    """A command doesn't say how it is called."""


@dataclass(frozen=True)
class Release:
    """What the packages are made from and named by."""

    top: Path
    program: Path
    version: str
    commit: str
    committer: str
    moment: int
    date: str
    toolchain: str
    sum: str

    def notes(self) -> str:
        return BUILD.format(version=self.version, commit=self.commit, toolchain=self.toolchain, logic=logic(self.program),
                            glibc=glibc(self.program), sum=self.sum)


def tracked(top: Path, *places: str) -> list[str]:
    """The files of the commit in these places."""
    said = subprocess.run(["git", "ls-files", "-z", "--", *places], cwd=top, stdout=subprocess.PIPE, text=True, check=True)
    return sorted(it for it in said.stdout.split("\0") if it and not it.startswith(OF_THE_REPOSITORY))


def tools(top: Path) -> list[str]:
    """The names of the commands in tools/ but for the one that packs them."""
    direct = [Path(it) for it in tracked(top, "tools") if it.count("/") == 1]
    return [it.name for it in direct if os.access(top / it, os.X_OK) and it.name != OWN_TOOL]


def users_pages(top: Path) -> list[str]:
    found = tracked(top, "README.md", "CHANGELOG.md", "docs", "tools/README.md", "clients/python/README.md", "examples", "editors")
    return [it for it in found if Path(it).parts[0] != "docs" or Path(it).stem not in FOR_DEVELOPERS]


def put(top: Path, names: list[str], at: str, to: Path) -> None:
    """Copies files, which lie below one folder, to another."""
    for name in names:
        place = to / Path(name).relative_to(at)
        place.parent.mkdir(parents=True, exist_ok=True)
        shutil.copy(top / name, place)


def help_of(program: Path) -> str:
    """What a program says when it is asked for help, as on a terminal of 80 columns."""
    environment = {**os.environ, "COLUMNS": "80", "LC_ALL": "C.UTF-8"}
    try:
        asked = subprocess.run([str(program), "--help"], capture_output=True, text=True, env=environment, stdin=subprocess.DEVNULL, timeout=SECONDS)
    except (OSError, subprocess.TimeoutExpired) as error:
        raise NoHelp(f"{program} --help: {error}") from error
    if asked.returncode or not asked.stdout:
        raise NoHelp(f"{program} --help gives no help, of which its manual page is made: {asked.stderr.strip()}")
    return asked.stdout


def manual_pages(made: Release) -> dict[str, str]:
    """The manual page of each command."""
    programs = {"whatif": made.program, **{it: made.top / "tools" / it for it in tools(made.top)}}
    more = {"whatif": pages.statuses((made.top / "docs" / "MANUAL.md").read_text())}
    return {name: pages.page(name, help_of(program), f"whatif {made.version}", made.date, [*more.get(name, []), *pages.see_also(name, programs)])
            for name, program in programs.items()}


def lay_out(made: Release, copyright: str, root: Path) -> None:
    """Puts all below a folder, each file and folder as old as the commit, so that the same commit gives the same bytes."""
    share, document, manual = root / "share" / "whatif", root / "share" / "doc" / "whatif", root / "share" / "man" / "man1"
    client = root / "lib" / "python3" / "dist-packages" / "whatif"
    for folder in (root / "bin", manual):
        folder.mkdir(parents=True)
    shutil.copy(made.program, root / "bin" / "whatif")
    put(made.top, [*(f"tools/{it}" for it in tools(made.top)), *tracked(made.top, "tools/whatif_tools")], "tools", share)
    for name in tools(made.top):
        (root / "bin" / name).symlink_to(f"../share/whatif/{name}")
    put(made.top, tracked(made.top, "clients/python/whatif"), "clients/python/whatif", client)
    put(made.top, users_pages(made.top), ".", document)
    (document / "BUILD").write_text(made.notes())
    (document / "copyright").write_text(copyright)
    for name, text in manual_pages(made).items():
        (manual / f"{name}.1.gz").write_bytes(compressed(text.encode()))
    for it in [root, *root.rglob("*")]:
        if not it.is_symlink():
            it.chmod(0o755 if it.is_dir() or os.access(it, os.X_OK) else 0o644)
        os.utime(it, (made.moment, made.moment), follow_symlinks=False)
