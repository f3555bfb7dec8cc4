"""What a version promises to keep, by promised.txt: a line a kind and a name."""

from __future__ import annotations

import glob
import os
import re
from typing import Iterator

from tests import Claim
from tests import TOP
from tests.documents import structs, words
from tests.documents.contracts import read
from tests.finding import found


def there() -> dict[str, set[str]]:
    """The names that are there now, by kind."""
    grammar = words.in_grammar()
    header = read("include", "faxpages.h")
    module = read("python", "faxpages", "__init__.py")
    rust = "".join(read(os.path.relpath(name, TOP)) for name in sorted(glob.glob(os.path.join(TOP, "rust/src/*.rs"))))
    listed = found(r"^__all__ = \[(.*?)\]", module, re.M | re.S).group(1)
    return {
        "command": set(grammar),
        "option": {f"{command} {option}" for command, options in grammar.items() for option, _ in options},
        "call": set(re.findall(r"\b(faxpages_\w+)\(", header)),
        "number": {f"{name} {number}" for name, number in re.findall(r"\b(FAXPAGES_[A-Z0-9_]+) = (\d+)", header)},
        "struct": set(lay_out()),
        "python": set(re.findall(r'"(\w+)"', listed)),
        "rust": set(re.findall(r"^ *pub (?:const )?(?:fn|struct|enum|type|mod|trait) (\w+)", rust, re.M)),
        "script": {os.path.basename(name) for name in glob.glob(os.path.join(TOP, "recipes/faxpages-*"))},
    }


def lay_out() -> Iterator[str]:
    """Where each member of each struct of the header lies, and how many bytes a struct has: in 64 bits, and in 32."""
    for struct in structs.structs():
        yield "{} {} {}".format(struct.name, *struct.sizes)
        for member in struct.members:
            yield "{}.{} {} {}".format(struct.name, member.name, *member.offsets)


def promised() -> Iterator[tuple[str, str]]:
    """The kinds and names that stay."""
    for line in read("tests", "documents", "promised.txt").splitlines():
        if line and not line.startswith("#"):
            kind, name = line.split(" ", 1)
            yield kind, name


def rows_of_tests() -> Iterator[tuple[str, str, str]]:
    """The lines of tested.txt: promise, file, text."""
    for line in read("tests", "documents", "tested.txt").splitlines():
        row = re.fullmatch(r"([^#].*) \| (\S+/\S+) \| (.+)", line)
        if row:
            yield row[1], row[2], row[3]


def claims() -> Iterator[tuple[str, bool]]:
    """Each name that was promised is there, and tested.txt says where the promises are tested."""
    now, rows = there(), list(rows_of_tests())
    for kind, name in promised():
        yield f"{kind} {name} is there, as was promised", name in now[kind]
        if kind in ("command", "option", "script"):
            word = f"`{name.split(' ')[-1]}`"
            yield f"tests/documents/tested.txt has {word}", any(word in promise for promise, _, _ in rows)
    lines = {name for kind, name in promised() if kind == "struct"}
    yield f"each struct of the header is promised, as it lies: {sorted(now['struct'] - lines)}", now["struct"] == lines
    yield f"tests/documents/tested.txt has lines: {len(rows)}", len(rows) > 150
    for promise, file, text in rows:
        there_is = os.path.isfile(os.path.join(TOP, file))
        yield f"{promise}: {file} has '{text}'", there_is and text in read(*file.split("/"))


def write() -> None:
    """Prints all that is there now, for a version that promises it."""
    for kind, names in there().items():
        for name in sorted(names):
            print(kind, name)
