"""The links of docs/PROOFS.md to lines of the crates: each leads to the line that declares what it names."""

from __future__ import annotations

import os
import re
from typing import Iterator

from tests import TOP
from tests.documents.contracts import read
from tests.glossary import DECLARED

DOCUMENT = ("docs", "PROOFS.md")
LINK = re.compile(r"\[`([\w:]+)`\]\(\.\./(crates/[\w/.]+)#L(\d+)\)")


def line_of(name: str, path: str) -> int:
    """The line of a file that declares a name, of `A::b` the b after A; 0 if none does."""
    owner, _, member = name.rpartition("::")
    text = read(*path.split("/"))
    start = re.search(DECLARED.format(owner), text, re.M) if owner else None
    found = re.compile(DECLARED.format(member), re.M).search(text, start.end() if start else 0)
    return text.count("\n", 0, found.start()) + 1 if found else 0


def written() -> str:
    """The document with the lines as they are now."""
    return LINK.sub(lambda it: f"[`{it[1]}`](../{it[2]}#L{line_of(it[1], it[2])})", read(*DOCUMENT))


def write() -> None:
    text = written()
    with open(os.path.join(TOP, *DOCUMENT), "w", encoding="utf-8") as file:
        file.write(text)


def claims() -> Iterator[tuple[str, bool]]:
    links = LINK.findall(read(*DOCUMENT))
    yield f"docs/PROOFS.md has links to lines: {len(links)}", len(links) > 70
    for name, path, line in links:
        said = f"docs/PROOFS.md: {name} is in line {line} of {path}, or else tests/documents/run --write writes it"
        yield said, line_of(name, path) == int(line) > 0
