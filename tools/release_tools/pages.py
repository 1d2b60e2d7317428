"""Manual pages, made of what programs say when they are asked for help, so that none can lag behind."""

import re
from collections.abc import Iterable
from dataclasses import dataclass

USAGE = re.compile(r"^usage: ", re.IGNORECASE)
ENTRY = re.compile(r"^( {2,6})(\S.*?)(?: {2,}(\S.*))?$")
# A Python before 3.10 calls the options so.
OPTIONS = {"optional arguments": "options"}


@dataclass(frozen=True)
class Entry:
    """A name, as that of an option, and what it means."""

    name: str
    meaning: str


def paragraphs(text: str) -> list[list[str]]:
    """The lines of each paragraph."""
    return [it.split("\n") for it in re.split(r"\n\s*\n", text.strip("\n"))]


def entries(lines: list[str]) -> list[Entry]:
    """The entries of a list. What is indented deeper than names goes on with the entry before."""
    found: list[Entry] = []
    for line in lines:
        entry = ENTRY.match(line)
        if entry:
            found.append(Entry(entry[2], entry[3] or ""))
        elif found:
            found[-1] = Entry(found[-1].name, f"{found[-1].meaning} {line.strip()}".strip())
    return found


def is_list(lines: list[str]) -> bool:
    """Whether a paragraph is a title, perhaps with a word on it behind a comma, and entries below."""
    return len(lines) > 1 and lines[0][:1].strip() != "" and re.search(r"(:|,.*)$", lines[0]) is not None and ENTRY.match(lines[1]) is not None


def escaped(text: str) -> str:
    text = text.replace("\\", "\\e").replace("-", "\\-")
    return "\\&" + text if text.startswith((".", "'")) else text


def section(lines: list[str]) -> list[str]:
    """A list as a section of its own, with what its title says beside the name as its first line."""
    title, _, rest = re.sub(r":$", "", lines[0]).partition(", ")
    title = OPTIONS.get(title, title)
    written = [f".SH {escaped(title.upper())}"]
    if rest:
        written.append(escaped(f"{rest[0].upper()}{rest[1:]}."))
    for entry in entries(lines[1:]):
        written += [".TP", f".B {escaped(entry.name)}", escaped(entry.meaning) or "\\&"]
    return written


def prose(lines: list[str]) -> list[str]:
    """A paragraph of text, or an example that stands as it is."""
    if all(it.startswith("  ") for it in lines):
        return [".PP", ".nf", *map(escaped, lines), ".fi"]
    return [".PP", *map(escaped, lines)]


def usage_of(lines: list[str]) -> str:
    return " ".join(USAGE.sub("", " ".join(lines)).split())


def page(name: str, said: str, of: str, date: str, more: list[str]) -> str:
    """The page of a program that says this of itself and is part of something, with sections that stand elsewhere behind it."""
    parts = paragraphs(said)
    usage = next((it for it in parts if USAGE.match(it[0])), [f"usage: {name}"])
    texts = [it for it in parts if it is not usage and not is_list(it)]
    lists = [it for it in parts if is_list(it)]
    summary = re.split(r"[.:] |[.:]$", re.sub(rf"^{re.escape(name)}: ", "", " ".join(texts[0]) if texts else name))[0]
    head = [f'.TH {escaped(name.upper())} 1 "{date}" "{of}" "User Commands"', ".SH NAME",
            f"{escaped(name)} \\- {escaped(summary[0].lower() + summary[1:])}"]
    body = [".SH SYNOPSIS", f".B {escaped(usage_of(usage))}", ".SH DESCRIPTION"]
    for text in texts:
        body += prose(text)
    for lines in lists:
        body += section(lines)
    return "\n".join([*head, *body, *more]) + "\n"


def see_also(name: str, names: Iterable[str]) -> list[str]:
    """The pages beside this one."""
    return [".SH SEE ALSO", ", ".join(f"{escaped(it)}(1)" for it in sorted(names) if it != name) + ", and the pages in /usr/share/doc/whatif"]


def statuses(manual: str) -> list[str]:
    """The manual's table of exit statuses as a section."""
    table = manual.partition("\n## Exit status\n")[2].partition("\n## ")[0]
    rows = re.findall(r"^\| ([0-9]+) \| (.*) \|$", table, re.MULTILINE)
    return [".SH EXIT STATUS", *(line for number, cause in rows for line in (".TP", f".B {number}", escaped(cause.replace("`", ""))))]
