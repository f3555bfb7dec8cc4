"""A folder for the tests of archives, and calls of the command in it."""

from __future__ import annotations

import contextlib
import csv
import io
import json
import os
import signal
import sqlite3
import subprocess
import sys
from typing import Callable, Iterator

from tests import MODULE
from tests.archive.breaking import broken_module
from tests.waiting import PATIENCE, wait_for

# How long Dask tries to reach its own processes, which a loaded machine starts slowly.
CONNECT = "DASK_DISTRIBUTED__COMM__TIMEOUTS__CONNECT"
os.environ[CONNECT] = f"{PATIENCE}s"


# The rows of a table, by their whole paths, without the seconds.
Rows = dict[bytes, dict[str, str]]


class Room:
    """A folder, the library and the program that are tried, and what was counted."""

    def __init__(self, folder: str, library: str, program: str) -> None:
        self.folder, self.library, self.program = folder, library, program
        self.counts = {True: 0, False: 0}
        self.dask = next(filter(has_dask, dict.fromkeys([sys.executable, "/usr/bin/python3"])), None)

    def __call__(self, name: str) -> str:
        return os.path.join(self.folder, name)

    def claim(self, name: str, got: object, wanted: object = True) -> None:
        self.counts[got == wanted] += 1
        if got != wanted:
            print(f"FAILED: {name}: {str(got)[:600]}, wanted {str(wanted)[:600]}".encode(errors="replace").decode())

    def start(self, *words: str, python: str | None = None, broken: str = "",
              **more: str) -> subprocess.Popen[bytes]:
        """Starts the command, with what is broken for it and more variables."""
        module = broken_module(self.folder) if broken else MODULE
        told = {name: value for name, value in os.environ.items() if not name.startswith("SLURM_")}
        told.update(
            FAXPAGES_LIBRARY=self.library,
            PYTHONPATH=module,
            BROKEN=broken,
            PYTHONDONTWRITEBYTECODE="1",
            LC_ALL="C",
            TMPDIR=self.folder,
            **more)
        return subprocess.Popen([python or sys.executable, "-m", "faxpages.archive", *words], env=told, stdin=subprocess.DEVNULL,
                                stdout=subprocess.PIPE, stderr=subprocess.PIPE, cwd=self.folder, start_new_session=True)

    def run(self, *words: str, python: str | None = None, **more: str) -> tuple[int, bytes, str]:
        """The status, the output and the error stream of the command."""
        process = self.start(*words, python=python, **more)
        out, error = process.communicate(timeout=PATIENCE)
        return process.returncode, out, error.decode(errors="replace")

    def summary(self, *words: str, **more: str) -> tuple[int, str]:
        """The status, and the summary up to how long it took."""
        status, out, error = self.run(*words, **more)
        return status, out.decode().rpartition("; ")[0] or error

    def rows(self, table: str) -> Rows:
        """The rows of a table as CSV, by their whole paths as bytes, without the seconds."""
        tree = json.loads(self.run("table", table, "--summary")[1])["tree"].encode("utf-8", "surrogateescape")
        status, out, error = self.run("table", table, "--csv")
        self.claim(f"{table} as CSV", (status, error), (0, ""))
        lines = list(csv.DictReader(io.StringIO(out.decode("utf-8", "surrogateescape"), newline="")))
        found = {os.path.join(tree, line.pop("path").encode("utf-8", "surrogateescape")): line for line in lines}
        for line in found.values():
            line.pop("seconds")
        return found

    def interrupt(self, number: signal.Signals, table: str, *words: str, after: int = 400,
                  python: str | None = None) -> tuple[int, int]:
        """Starts the command, whose workers wait once they have begun so many faxes, and ends it by a signal when more
        rows are in the table. How many are, and its status. A signal that asks for the end comes to its workers too, as
        from a terminal or from Slurm."""
        before, gate = count(self(table)), self("gate")
        with open(gate, "wb"):
            pass
        process = self.start(*words, python=python, broken="stops", GATE=gate, AFTER=str(after))
        wait_for(lambda: count(self(table)) > before or process.poll() is not None)
        if number == signal.SIGKILL:
            process.kill()
        else:
            os.killpg(process.pid, number)
        process.wait(PATIENCE)
        os.unlink(gate)
        process.communicate(timeout=PATIENCE)
        return count(self(table)), process.returncode


def count(table: str) -> int:
    """How many rows a table has, where there is one."""
    with contextlib.suppress(sqlite3.Error):
        with contextlib.closing(sqlite3.connect(f"file:{table}?mode=ro", uri=True)) as base:
            return int(base.execute("SELECT count(*) FROM faxes").fetchone()[0])
    return 0


def has_dask(python: str) -> bool:
    """Whether a Python has Dask."""
    try:
        asked = [python, "-c", "import distributed.cli.dask_worker; distributed.Client"]
        return subprocess.run(asked, capture_output=True, check=False).returncode == 0
    except OSError:
        return False


@contextlib.contextmanager
def started(words: list[str], environment: dict[str, str]) -> Iterator[subprocess.Popen[bytes]]:
    """A server, which is ended."""
    process = subprocess.Popen(words, env=environment, stdin=subprocess.DEVNULL, stdout=subprocess.DEVNULL,
                               stderr=subprocess.DEVNULL)
    try:
        yield process
    finally:
        process.send_signal(signal.SIGTERM)
        try:
            process.wait(60)
        except subprocess.TimeoutExpired:
            process.kill()
            process.wait()


# A part of the tests, which is given a tree's paths and its rows too.
Part = Callable[[Room, list[bytes], Rows], None]
