"""docs/GLOSSARY.md: each name that it gives is in the crates, each concept has one line, and the words that went stand
nowhere in the crates and the documents."""

from __future__ import annotations

import os
import re
import subprocess
from typing import Iterator

from tests import TOP
from tests.documents.contracts import read
from tests.glossary import Line, declaration, lines
from tests.sources import listed

# Where the words that went are looked for, and which documents name them.
SEARCHED = re.compile(r"crates/.*\.(?:rt|antt|edit|md)$|tests/edits/.*\.edit$|docs/.*\.md$|README\.md$|CONTRIBUTING\.md$")
ALLOWED = {"docs/GLOSSARY.md", "docs/NAMES.md", "docs/STYLE.md"}
# What a stranger asks, and the one file that answers.
ASKED = {"bit offset": "crates/fax_bits/src/source.rt", "place_before": "crates/fax_bits/src/source.rt",
         "changing element": "crates/fax_rows/src/", "RowsLeft": "crates/fax_walk/src/"}


def pattern(word: str) -> str:
    """A word that went, as it would stand: a name as it is, the words of a phrase with any blanks between them."""
    return r"(?<!\w)" + r"\s+(?:(?://[/!]?|--)\s+)?".join(map(re.escape, word.strip("'").split())) + r"(?!\w)"


def gone(all_lines: list[Line]) -> dict[str, re.Pattern[str]]:
    return {word: re.compile(pattern(word)) for line in all_lines for word in line.went}


def standing(words: dict[str, re.Pattern[str]], text: str) -> list[str]:
    """The words that went which a text has: each has its first part in the text as it is."""
    return [word for word, wanted in words.items() if word.strip("'").split()[0] in text and wanted.search(text)]


def claims() -> Iterator[tuple[str, bool]]:
    known = lines()
    words = gone(known)
    yield "docs/GLOSSARY.md has a line for each concept", len(known) > 40
    each = [word for line in known for word in line.words]
    yield f"docs/GLOSSARY.md has a word twice: {sorted({word for word in each if each.count(word) > 1})}", len(set(each)) == len(each)
    for line in known:
        for name in line.names:
            yield f"docs/GLOSSARY.md: {name} is in the crates", declaration(name) is not None
    for word in words:
        planted = word.strip("'").replace(" ", "\n    -- ", 1)
        yield f"a word that went is found: {word}", word in standing(words, f"the {planted} of it")
    for name in listed():
        if SEARCHED.match(name) and name not in ALLOWED:
            there = standing(words, read(name))
            yield f"{name} has words that went, as docs/GLOSSARY.md says: {there}", not there
    yield from answers()


def answers() -> Iterator[tuple[str, bool]]:
    """./where says of a word what it means and where it is, and of one that nobody knows that it is not there."""
    for asked, file in ASKED.items():
        ran = where(asked)
        yield f"./where {asked} names {file}", ran.returncode == 0 and file in ran.stdout
        yield f"./where {asked} has one answer", len(re.findall(r"^\S", ran.stdout, re.M)) == 1
    ran = where("no such word")
    yield "./where says that a word is not in the glossary", ran.returncode == 1 and "no such word" in ran.stderr


def where(words: str) -> subprocess.CompletedProcess[str]:
    return subprocess.run([os.path.join(TOP, "where"), *words.split()], capture_output=True, text=True, check=False)
