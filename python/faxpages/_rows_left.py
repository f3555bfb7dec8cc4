"""How many rows are left of a damaged fax, as `faxpages salvage` prints it. The program is the one on the PATH: it needs
no memory for rows that the fax says it has."""

from __future__ import annotations

import subprocess
import tempfile
from typing import Tuple

_WORDS = ("faxpages", "salvage")
# The statuses of a run that has read all: nothing is lost, or something is.
_READ = (0, 1)


class NotSalvaged(Exception):
    """Why the program cannot tell what is left."""


def rows_left(data: bytes) -> Tuple[int, int]:
    """How many rows of all pages of a file are found, and how many are lost. Of a page that is refused nobody knows how
    many it has."""
    found = lost = 0
    with tempfile.TemporaryFile() as given:
        given.write(data)
        given.seek(0)
        try:
            with subprocess.Popen(_WORDS, stdin=given, stdout=subprocess.PIPE, stderr=subprocess.DEVNULL) as process:
                assert process.stdout
                for line in process.stdout:
                    if line.startswith(b"row "):
                        found += 1
                    elif line.count(b" ") == 4:
                        lost += int(line.split()[3])
        except OSError as error:
            raise NotSalvaged(f"{_WORDS[0]}: {error.strerror}") from error
    if process.returncode not in _READ:
        raise NotSalvaged(f"`faxpages salvage` ended with status {process.returncode}")
    return found, lost
