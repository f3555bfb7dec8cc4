"""What a program writes of other files says so in its first line, git knows it, and CONTRIBUTING.md names it."""

from __future__ import annotations

import fnmatch
import os
import re
from typing import Iterator

from tests import TOP
from tests.documents.contracts import read

# By their place, what writes them. Of a picture git alone says so, and a licence is copied as it stands.
MADE = {
    "plain/*": "tools/plain-rust", "licences/*": "tools/licences", "docs/STRUCTS.md": "tests/documents/structs.py",
    "web/faxpages.wasm.js": "tools/build-web",
}
LINE = re.compile(r"\W*Made by (\S+?)(?: of (\S+))?: change that\.")


def places() -> list[str]:
    """The files of these sources that are made, but for what cargo writes."""
    found = [os.path.relpath(os.path.join(base, name), TOP) for folder in ("plain", "licences")
             for base, _, names in os.walk(os.path.join(TOP, folder)) for name in names]
    cargos = ("plain/target/", "plain/Cargo.lock")
    return sorted([name for name in found if not name.startswith(cargos)] + [name for name in MADE if "*" not in name])


def claims() -> Iterator[tuple[str, bool]]:
    lines = read(".gitattributes").splitlines()
    marked = [line.split()[0] for line in lines if "linguist-generated" in line.split()]
    contributing = read("CONTRIBUTING.md")
    listed = places()
    yield f"files are made: {len(listed)}", len(listed) > 100
    for name in listed:
        writer = next(writer for pattern, writer in MADE.items() if fnmatch.fnmatch(name, pattern))
        yield f"{name}: .gitattributes says that it is made", any(
            fnmatch.fnmatch(name, pattern.replace("**", "*")) for pattern in marked)
        if os.path.basename(name) == "LICENSE":
            continue
        said = LINE.match(read(*name.split("/")).partition("\n")[0])
        yield f"{name}: its first line says that {writer} makes it", said is not None and said[1] == writer
        source = said[2] if said and said[2] else writer
        yield f"{name}: what it is made of is there: {source}", os.path.exists(os.path.join(TOP, source))
    for pattern, writer in MADE.items():
        place = pattern.removesuffix("*")
        yield f"CONTRIBUTING.md says in a line that {writer} makes {place}", any(
            f"`{place}`" in line and f"`{writer}" in line for line in contributing.splitlines())
