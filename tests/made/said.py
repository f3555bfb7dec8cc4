#!/usr/bin/env python3
"""Tries the note and the option that tests/made/run makes, in the copy: by the program, Python, the archive and completions.

    tests/made/said.py PROGRAM

The library is that of FAXPAGES_LIBRARY. Ends with 'said: N passed, N failed'."""

from __future__ import annotations

import os
import random
import subprocess
import sys
import tempfile
from typing import Iterator

sys.dont_write_bytecode = True

from tests import MODULE, TOP, Claim  # noqa: E402
from tests.plain import drawing, notes, strips  # noqa: E402
from tests.plain.running import run, run_bytes  # noqa: E402

import faxpages  # noqa: E402

FILES = 300
IMAGE = b"P4 8 5\n\x18\x00\xff\x18\x3c"
# Of a page of one white row in MMR: its code, the end of the block, and a 1; with zeros to whole bytes.
MARKED = int("1" + 2 * "000000000001" + "1" + "000000", 2).to_bytes(4, "big")
MADE = {"halves": True}


def ended(count: int) -> Iterator[bytes]:
    """Drawn strips, with an end mark and without, and with data after it and without."""
    rng = random.Random("made")
    for number in range(count):
        coding, order, width = rng.choice(["mh", "mr", "mmr"]), rng.choice([1, 2]), rng.choice([8, 13, 32])
        rows = [drawing.draw_row(rng, width, "W" * width) for _ in range(1 + number % 3)]
        bits = drawing.code_rows(rng, coding, rows) + rng.choice(["", drawing.end_mark(coding)]) + rng.choice(["", "0", "01"])
        yield strips.file_of(coding, order, width, len(rows), drawing.to_bytes(bits, order))


def by_program(program: str) -> Iterator[Claim]:
    """check says what the plain reading says of drawn strips, of which many have the note; convert takes the option."""
    files = list(ended(FILES))
    texts = [notes.report_of(file) for file in files]
    yield "check, as a plain reading", [run(program, ["check"], file) for file in files] == texts, True
    noted = sum("N7 DataAfterMark" in text[0] for text in texts)
    yield f"{noted} of {len(files)} have the note", len(files) // 20 < noted < len(files) - len(files) // 20, True
    for target in ("mh", "mr", "mmr", "pbm"):
        words = ["convert", "-o", target]
        got, wanted_bytes = run_bytes(program, [*words, "--halves"], IMAGE), run_bytes(program, [*words, "--strip", "3"], IMAGE)
        yield f"convert -o {target} --halves", got, wanted_bytes
        yield f"convert -o {target} --halves: done", (got[2], bool(got[0])), (0, True)


def by_python() -> Iterator[Claim]:
    """The module has both."""
    with open(os.path.join(TOP, "tests", "runs", "inputs", "check-data-after-end-of-block.tif"), "rb") as file:
        data = file.read()
    names = ["N3 DataAfterEnd", "N7 DataAfterMark"]
    yield "Python: notes of a file", [f"N{it.number} {it.name}" for it in faxpages.check(data).notes], names
    # The struct of a strip's report stays as it is within version 1, and has no place for a new note.
    of_strip = [f"N{it.number} {it.name}" for it in faxpages.check_strip(MARKED, 8, 1).notes]
    yield "Python: notes of a strip", of_strip, names[:1]
    halves = faxpages.convert(IMAGE, "mh", **MADE)
    yield "Python: convert", halves, faxpages.convert(IMAGE, "mh", strip=3)
    yield "Python: convert of a fax", faxpages.Fax(halves).convert("mmr", **MADE), faxpages.convert(IMAGE, "mmr", strip=3)


def by_archive(room: str) -> Iterator[Claim]:
    """faxpages-archive has the note in its table, takes the option, and keeps which one a table is of."""
    os.mkdir(f"{room}/tree")
    with open(os.path.join(TOP, "tests", "runs", "inputs", "check-data-after-end-of-block.tif"), "rb") as source:
        fax = source.read()
    with open(f"{room}/tree/a.tif", "wb") as file:
        file.write(fax)
    convert = ["convert", "tree", "copies", "--to", "mh", "--table", "t.sqlite"]
    for words, wanted in (([*convert, "--halves"], 0), (convert, 2), (["table", "t.sqlite", "--csv"], 0)):
        ran = subprocess.run([sys.executable, "-m", "faxpages.archive", *words], cwd=room, capture_output=True, text=True,
                             env={**os.environ, "PYTHONPATH": MODULE}, check=False)  # fmt: skip
        yield f"faxpages-archive {' '.join(words)}: {ran.stderr}", ran.returncode, wanted
    yield "faxpages-archive table", "DataAfterEnd DataAfterMark" in ran.stdout, True
    with open(f"{room}/copies/a.tif", "rb") as copy:
        yield "faxpages-archive convert --halves", copy.read(), faxpages.convert(fax, "mh", **MADE)


def by_shells() -> Iterator[Claim]:
    """The shells complete the option."""
    for command, word in (("faxpages", "convert"), ("faxpages-archive", "convert")):
        script = (f"source completions/{command}.bash; COMP_WORDS=({command} {word} --hal); COMP_CWORD=2; "
                  f'$(complete -p {command} | sed "s/.*-F \\([^ ]*\\).*/\\1/") 2>/dev/null; echo "${{COMPREPLY[@]}}"')
        ran = subprocess.run(["bash", "-c", script], cwd=TOP, capture_output=True, text=True, check=False)
        yield f"{command} is completed in bash", ran.stdout, "--halves\n"
        for shell in (f"completions/{command}.fish", f"completions/_{command}"):
            with open(os.path.join(TOP, shell), encoding="utf-8") as file:
                yield f"{shell} has the option", "halves" in file.read(), True


def main() -> int:
    counts = {True: 0, False: 0}
    with tempfile.TemporaryDirectory() as room:
        for name, got, wanted in (*by_program(sys.argv[1]), *by_python(), *by_archive(room), *by_shells()):
            counts[got == wanted] += 1
            if got != wanted:
                print(f"FAILED: {name}: {got!r}, wanted {wanted!r}"[:900])
    print(f"said: {counts[True]} passed, {counts[False]} failed")
    return 1 if counts[False] else 0


if __name__ == "__main__":
    sys.exit(main())
