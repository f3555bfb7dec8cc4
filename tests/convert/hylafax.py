"""HylaFAX's `tiffcheck`, of Debian's `hylafax-server`: it says what a file needs before it is sent.

A file that `convert` writes with one strip a page needs nothing where it is sent in its own coding, width and
resolution: 'OK'. One of more strips needs its strips put together: 'REFORMAT', as `tiffcheck` knows no other
layout."""

from __future__ import annotations

import shutil
import subprocess
from typing import Iterator

from tests import Claim
from tests.convert import pages
from tests.convert.files import put

WIDTHS = [1, 7, 8, 9, 31, 32, 33, 64, 1728, 2560, 2624, 65535]
COMPARISONS = 1152
CODINGS = {"mh": "-1", "mr": "-2", "mmr": "-3"}
# What more is asked for: MMR has no EOLs to align.
WAYS: list[list[str]] = [[], ["--strip", "1"], ["--align"]]
# In Debian the one on the path is a script, which mounts a folder first: the program itself is in the first place.
PLACES = ["/usr/lib/hylafax/bin", "/usr/lib/fax", "/usr/local/sbin", "/usr/sbin"]
TIFFCHECK = shutil.which("tiffcheck", path=":".join(PLACES))


def missing(_: str) -> str:
    """What is missing, or nothing."""
    return "" if TIFFCHECK else "tiffcheck missing (hylafax-server)"


def needed(coding: str, width: int, file: str) -> tuple[int, str, str]:
    """What a file needs; a message that follows is left out."""
    words = [TIFFCHECK or "", CODINGS[coding], "-w", str(width), "-r", "196", file]
    ran = subprocess.run(words, capture_output=True, text=True, timeout=900)
    return ran.returncode, ran.stdout.partition("\n")[0], ran.stderr


def compare(program: str, room: str, width: int, drawn: list[list[int]], source: bytes) -> Iterator[Claim]:
    """The comparisons of a document: a name, what came, and what is wanted."""
    for coding in CODINGS:
        for order in ("1", "2"):
            for more in WAYS[: 2 if coding == "mmr" else 3]:
                words = ["-o", coding, "--order", order, *more]
                data = pages.converted(program, words, source)
                file = put(f"{room}/checked.tif", data if isinstance(data, bytes) else b"")
                wanted = "REFORMAT" if "--strip" in more and max(map(len, drawn)) > 1 else "OK"
                yield f"{' '.join(words)}: tiffcheck", needed(coding, width, file), (0, wanted, "")
