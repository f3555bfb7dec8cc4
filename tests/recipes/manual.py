"""The manual page of the scripts, faxpages-recipes(1): what it says of their arguments, and its examples."""

from __future__ import annotations

import os
import re
from typing import Iterator

from tests import Claim
from tests.convert import files
from tests.recipes.recipes import ROOT, SCRIPTS
from tests.recipes.room import Room

MANUAL = f"{ROOT}/man/faxpages-recipes.1"


def synopsis(page: str) -> dict[str, str]:
    """The lines of the synopsis as a usage has them."""
    part = page.split(".Sh SYNOPSIS\n")[1].split(".Sh ")[0]
    said = {}
    for call in part.split(".Nm ")[1:]:
        name, *lines = call.splitlines()
        words = [re.sub(r"^\.Op (.*)", r"[\1]", line).removeprefix(".Ar ") for line in lines]
        text = re.sub(r"\bFl -", "--", " ".join(words)).replace("Ar ", "")
        said[name] = f"usage: {name} {text}\n"
    return said


SAMPLES = {
    "one-mh-page": ["sent", "archive/good"],
    "row-begins-black": ["received"],
    "damaged-fourth-page": ["fax", "archive/bad"],
}


def prepare(room: Room) -> None:
    """The files that the examples take."""
    for sample, names in SAMPLES.items():
        for name in names:
            room.sample(f"{sample}.tif", f"{name}.tif")
    room.bash("touch -d '1 hour ago' archive/*.tif; mkdir -p etc/templates/en")
    room.fax("source.tif", "mmr", "marks", 100)
    room.bash("img2pdf --output letter.pdf source.tif; cp letter.pdf received.pdf")
    room.tool("sendmail", '#!/bin/sh\ncat >"$HOME/mailed"\n')


def examples(page: str) -> Iterator[tuple[str, str]]:
    """The commands of each example, and what it prints."""
    for block in re.findall(r"^\.Bd -literal.*?\n(.*?)^\.Ed", page, re.M | re.S):
        for command in re.split(r"^\$ ", block, flags=re.M)[1:]:
            words, _, printed = command.partition("\n")
            yield words.replace("\\e", "\\"), printed


def manual(room: Room, _: str) -> Iterator[Claim]:
    page = files.get(MANUAL).decode()
    names = sorted(name for name in os.listdir(SCRIPTS) if os.access(f"{SCRIPTS}/{name}", os.X_OK))
    heads = re.findall(r"^\.Ss (\S+)\n(.*?)(?=^\.S[sh] )", page, re.M | re.S)
    yield "a section for each", [name for name, _ in heads], names
    yield "names", re.findall(r"^\.Nm (\S+)", page.split(".Sh SYNOPSIS")[0], re.M), names
    for name, text in heads:
        yield f"{name}: statuses and an example", ("tatus" in text, ".Bd -literal" in text), (True, True)
    said = synopsis(page)
    yield "synopsis", sorted(said), names
    for name, usage in said.items():
        yield f"{name}: usage", room.call(name), (2, b"", usage)
    prepare(room)
    for words, printed in examples(page):
        ran = room.bash(f"{{ {words}\n}} 2>&1", SENDMAIL=f"{room.path}/bin/sendmail", **room.module)
        yield f"example: {words}", ran[1].decode().replace(room(""), "./"), printed
    yield "the examples were found", len(list(examples(page))) >= len(names), True
    linted = room.bash(f"command -v mandoc >/dev/null || exit 0; mandoc -T lint -W warning {MANUAL}")
    yield "mandoc", [line for line in linted[1].decode().splitlines() if "referenced manual" not in line], []
