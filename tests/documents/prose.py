#!/usr/bin/env python3
"""The words of the documents, by docs/STYLE.md: a help for writers, and a test.

    tests/documents/prose.py              prints for each document its words, its long sentences and its long paragraphs
    tests/documents/prose.py DOCUMENT     prints these sentences and paragraphs, the phrases that go, and the README's
                                          lines with a number that no test keeps

tests/documents/run takes the claims: none has a phrase of the table 'Phrases that go', no link is dead, each page is
linked to, and no document, alone or with others, has more words than counts.txt says. Long sentences fail nothing."""

from __future__ import annotations

import fnmatch
import os
import re
import sys
from typing import Iterator

sys.dont_write_bytecode = True

from tests.documents.contracts import read  # noqa: E402
from tests.sources import listed  # noqa: E402

COUNTED = re.compile(r"(?!plain/|CHANGELOG\.md$)(?:.*\.md|man/.*|include/.*)$")
# These name the words that went, and the phrases that go.
NAMES_THEM = {"docs/STYLE.md", "docs/GLOSSARY.md"}
# The page that a reader opens first.
FIRST = "README.md"
MOST_WORDS = 30
# Of a paragraph, an item or a line of a table of the README, as it is read.
MOST_CHARACTERS = 300
# The numbers of the README that tests keep: of damage, of speed and of what ./test needs; and numbers that are names.
KEPT = re.compile(r"(?m)^(?:\| M\w+ \||Of \d+ (?:pages|copies)|The geometric mean|No reader sees|`\./test` takes).*$")
NAMES = re.compile(r"RFC \d+|TIFF [\d.]+|T\.\d|x86-64|Rust [\d.]+|Java \d+|Rows\d+|Debian \d+")
# What may be between two words of a phrase: blanks, and the sign of a comment in the next line.
BETWEEN = r"\s+(?:(?:\*|//[/!]?|--|\.\\\")\s+)?"


def documents() -> list[str]:
    """The documents whose words are counted."""
    return [name for name in listed() if COUNTED.match(name)]


def limits() -> list[tuple[int, list[str]]]:
    """The lines of counts.txt: the most words, and the patterns of the documents that share them."""
    lines = [line.split() for line in read("tests", "documents", "counts.txt").splitlines() if line and line[0] != "#"]
    return [(int(line[0]), line[1:]) for line in lines]


def matching(patterns: list[str], names: list[str]) -> list[str]:
    return [name for name in names if any(fnmatch.fnmatch(name, pattern) for pattern in patterns)]


def words(name: str) -> int:
    return len(read(*name.split("/")).split())


def phrases() -> dict[str, re.Pattern[str]]:
    """The phrases that go, and how each is found."""
    rows = re.findall(r"(?m)^\| ([^|]+) \|", read("docs", "STYLE.md").partition("## Phrases that go\n")[2])[1:]
    found = [phrase for row in rows if row[0] != "-" for phrase in re.split(r",\s(?=\S)", row)]
    return {it: re.compile(rf"(?i)(?<![\w-]){BETWEEN.join(map(re.escape, it.split()))}(?![\w-])") for it in found}


def prose(name: str) -> str:
    """What a document says in sentences: without code, pictures and the signs of its format."""
    text = read(*name.split("/"))
    if name.endswith(".md"):
        text = re.sub(r"^```.*?^```$|<!--.*?-->|!\[[^\]]*\]\([^)]*\)", "", text, flags=re.M | re.S)
        return re.sub(r"\[([^\]]*)\]\([^)]*\)", r"\1", text)
    if name.endswith(".h"):
        return re.sub(r"(?m)^\s*\*", "", "\n\n".join(re.findall(r"/\*(.*?)\*/", text, re.S)))
    text = re.sub(r"^\.(?:Bd|nf|EX).*?^\.(?:Ed|fi|EE)", "", text, flags=re.M | re.S)
    text = re.sub(r"(?m)^\.(?:Sh|Ss|SH|SS|It|Pp|PP|TP|El|Bl).*", "\n", text)
    return re.sub(r"(?m)^\.\w+ ?", "", text)


def paragraphs(text: str) -> list[str]:
    """The paragraphs, items and lines of tables of a document, each on one line."""
    parts = re.split(r"\n\s*\n|\n(?=\s*- |\s*\||\d+\. )", text)
    return [line for part in parts if (line := " ".join(part.split())) and not line.startswith(("|---", "#"))]


def long_sentences(name: str) -> list[str]:
    """The sentences of more than MOST_WORDS words, those of a table cell by cell."""
    cells = (cell for part in paragraphs(prose(name)) for cell in (part.split("|") if part[0] == "|" else [part]))
    sentences = (it for cell in cells for it in re.split(r"(?<=[.?!:])\s+(?=[A-Z`*'])", cell))
    return [it for it in sentences if len(it.split()) > MOST_WORDS]


def long_paragraphs(name: str) -> list[str]:
    """Those of the README, which is for people in their first minutes."""
    return [it for it in paragraphs(prose(name)) if len(it) > MOST_CHARACTERS] if name == FIRST else []


def unkept_numbers(name: str) -> list[str]:
    """The lines of the README with a number that no test keeps."""
    if name != FIRST:
        return []
    lines = NAMES.sub("", KEPT.sub("", prose(name))).splitlines()
    return [line for line in lines if re.search(r"\d\d", line)]


def gone(name: str) -> list[str]:
    """The phrases that go and that a document has."""
    text = read(*name.split("/"))
    text = re.sub(r"^```.*?^```$", "", text, flags=re.M | re.S) if name.endswith(".md") else text
    return [phrase for phrase, pattern in phrases().items() if pattern.search(text)]


def links(name: str) -> Iterator[str]:
    """The documents that a document links to; a manual page links by its name."""
    text = read(*name.split("/"))
    for link in re.findall(r"\]\(([^)#:\s]+)(?:#[^)]*)?\)", text):
        yield os.path.normpath(os.path.join(os.path.dirname(name), link))
    for page, section in re.findall(r"(?:\.Xr |\.BR )?\b(faxpages[\w-]*)(?:\(| \(?)([1-8])\b", text):
        yield f"man/{page}.{section}"


def claims() -> Iterator[tuple[str, bool]]:
    names = documents()
    known = phrases()
    yield f"docs/STYLE.md has a table of phrases: {len(known)}", len(known) > 30
    for phrase, pattern in known.items():
        planted = f"what {phrase.replace(' ', chr(10) + ' * ')} it"
        yield f"a phrase that goes is found: {phrase}", pattern.search(planted) is not None
    for name in names:
        if name not in NAMES_THEM:
            there = gone(name)
            yield f"{name} has phrases that go, as docs/STYLE.md says: {there}", not there
    linked = {link for name in names for link in links(name) if link != name}
    for name in names:
        if name != FIRST and not name.startswith("include/"):
            yield f"{name}: another document links to it", name in linked
    yield from counts(names)


def counts(names: list[str]) -> Iterator[tuple[str, bool]]:
    """Each document is in a line of counts.txt, and no line has more words than it may."""
    *groups, everything = limits()
    for name in names:
        of = [patterns for _, patterns in groups if matching(patterns, [name])]
        yield f"tests/documents/counts.txt has {name} once", len(of) == 1
    for most, patterns in [*groups, everything]:
        total = sum(map(words, matching(patterns, names)))
        said = f"{' '.join(patterns)}: {total} words, and at most {most} by tests/documents/counts.txt"
        yield said, 0 < total <= most


def note() -> str:
    """What the test prints of all documents, and fails for nothing of."""
    names = documents()
    long = sum(len(long_sentences(it)) for it in names)
    return (f"{sum(map(words, names))} words, {long} sentences of over {MOST_WORDS} words, "
            f"{len(long_paragraphs(FIRST))} long paragraphs in {FIRST}: tests/documents/prose.py shows them")


def show(name: str) -> None:
    for phrase in gone(name):
        print(f"goes: {phrase}")
    for line in unkept_numbers(name):
        print(f"no test keeps: {line}")
    for kind, found in (("words", long_sentences(name)), ("characters", long_paragraphs(name))):
        for text in found:
            print(f"{len(text.split()) if kind == 'words' else len(text)} {kind}: {text}")


def main() -> None:
    if sys.argv[1:]:
        for name in sys.argv[1:]:
            show(name)
        return
    names = documents()
    for most, patterns in limits():
        print(f"{sum(map(words, matching(patterns, names)))} of {most}: {' '.join(patterns)}")
    for name in names:
        print(f"{words(name):6} {name}: {len(long_sentences(name))} long sentences, {len(gone(name))} phrases that go")
    print(note())


if __name__ == "__main__":
    main()
