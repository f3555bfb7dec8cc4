"""The faults and notes of faxpages(1), which are those of docs/TROUBLESHOOTING.md: what each means, and what to do about
faults of the machine."""

from __future__ import annotations

import re
import textwrap

from tests.documents.contracts import read

# The sections, in their order, and the faults of pages that name the tag of a field.
FAULTS = ["Faults of the file", "Faults of a row", "Faults of images", "Faults of cursors", "Faults of the machine"]
NOTES = "Notes"
# The faults that their section introduces, and those of which the manual page has what to do.
INTRODUCED = FAULTS[2]
ADVISED = {FAULTS[-1]}
TAGGED = {"MissingField", "BadField", "Unsupported", "OutOfLimits"}
# What the library alone reports.
OF_THE_LIBRARY = "TooManyRows"


def section(name: str) -> str:
    return read("docs", "TROUBLESHOOTING.md").partition(f"\n## {name}\n")[2].partition("\n## ")[0]


def roff(text: str) -> str:
    """Text of Markdown as lines of mdoc, of at most 80 letters: each sentence and each piece of code begins a line."""
    text = re.sub(r"\[([^\]]*)\]\([^)]*\)", r"\1", text).strip()
    text = re.sub(r"\s*(\()?`([^`]+)`([).,:;]*)\s*", quoted, text)
    text = re.sub(r"(?<=[.?]) +(?=[A-Z0-9])", "\n", text)
    return "\n".join(short for line in text.splitlines() for short in (
        [line] if line.startswith(".") else textwrap.wrap(line, 80, break_long_words=False, break_on_hyphens=False)))


def quoted(code: re.Match[str]) -> str:
    """A piece of code, in brackets or with the signs after it."""
    opened, signs = code[1], list(code[3])
    if opened and ")" in signs:
        signs.remove(")")
        return "\n" + " ".join([".Pq Ql", code[2], *signs]) + "\n"
    return f" ({code[2]}{code[3]} " if opened else "\n" + " ".join([".Ql", code[2], *signs]) + "\n"


def items(name: str) -> str:
    """The table of a section as a list."""
    found = [".Bl -tag -width DirectoryOutside"]
    for title, means, advice in re.findall(r"^\| `([^`]+)` \| ([^|]*) \|(?: ([^|]*) \|)?$", section(name), re.M):
        if title != OF_THE_LIBRARY:
            tag = " Ar tag" if name == FAULTS[0] and title in TAGGED else ""
            found += [f".It Li {title}{tag}", roff(means), *([roff(advice)] if name in ADVISED else [])]
    return "\n".join([*found, ".El"]) + "\n"


def introduction(name: str) -> str:
    """What a section says before its table."""
    text = section(name).partition("\n|")[0].strip()
    return roff(text) + "\n" if text else ""


def faults() -> str:
    return "".join(f".Ss {name}\n{introduction(name) if name == INTRODUCED else ''}{items(name)}" for name in FAULTS)


def notes() -> str:
    return introduction(NOTES) + items(NOTES)
