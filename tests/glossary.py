"""The words of docs/GLOSSARY.md: what each line says, and where the names that it gives are declared."""

from __future__ import annotations

import dataclasses
import functools
import os
import re

from tests.sources import listed

TOP = os.path.dirname(os.path.dirname(os.path.realpath(__file__)))
LINE = re.compile(r"^\| (\*\*.*?) \| (.*?) \| (.*?) \| ?(.*?) ?\|$")
DECLARED = (r"\b(?:fn|struct|enum|trait|type|const|static|mod) {0}\b|^(?:(?:pub|abbrev|unfoldable|record|data) )+{0}\b"
            r"|^    (?:pub )?{0}\b")


@dataclasses.dataclass(frozen=True)
class Line:
    """A line of the glossary: its words, what they mean, names in the code, and the words that went."""

    words: tuple[str, ...]
    meaning: str
    names: tuple[str, ...]
    went: tuple[str, ...]

    def speaks_of(self, wanted: str) -> bool:
        """Whether the line has this text, in capitals or not, in any of its columns."""
        return wanted.lower() in "\n".join((*self.words, self.meaning, *self.names, *self.went)).lower()


def lines() -> list[Line]:
    """The lines of the glossary's tables, in order."""
    with open(os.path.join(TOP, "docs", "GLOSSARY.md"), encoding="utf-8") as file:
        rows = [row for row in map(LINE.match, file.read().split("\n")) if row]
    return [Line(tuple(re.findall(r"\*\*(.*?)\*\*", row[1] + row[2])), re.sub(r"[*`]", "", row[2]),
                 tuple(re.findall(r"`(.*?)`", row[3])),
                 tuple(word.strip() for word in row[4].split(",") if word.strip())) for row in rows]


def found(wanted: str) -> list[Line]:
    """The lines of this word, of which it is said, or those that speak of it elsewhere where there is none."""
    exact = [line for line in lines() if wanted.lower() in map(str.lower, (*line.words, *line.names, *line.went))]
    return exact or [line for line in lines() if line.speaks_of(wanted)]


def declaration(name: str) -> str | None:
    """Where a name of the crates is declared, as FILE:LINE; of `A::b`, where b is in the file of A."""
    owner, _, member = name.rpartition("::")
    for path, text in crate_files():
        if member not in text or owner not in text:
            continue
        start = re.search(DECLARED.format(owner), text, re.M) if owner else None
        if owner and not start:
            continue
        there = re.compile(DECLARED.format(member), re.M).search(text, start.end() if start else 0)
        if there:
            return f"{path}:{text.count(chr(10), 0, there.start()) + 1}"
    return None


@functools.lru_cache
def crate_files() -> list[tuple[str, str]]:
    """The sources and definitions of the crates with their texts, lowest crate first and sources before definitions."""
    with open(os.path.join(TOP, "crates.txt"), encoding="utf-8") as file:
        crates = re.findall(r"^(\w+)", file.read(), re.M)
    names = [name for name in listed(new=True) if re.match(r"crates/\w+/(?:src/.*\.rt|specs/.*\.antt)$", name)]
    names.sort(key=lambda name: (crates.index(name.split("/")[1]), "/specs/" in name, name))
    return [(name, text_of(name)) for name in names]


def text_of(name: str) -> str:
    with open(os.path.join(TOP, name), encoding="utf-8") as file:
        return file.read()
