"""The same table by each engine, and killed in the middle."""

from __future__ import annotations

import contextlib
import fractions
import json
import os
import re
import signal
import subprocess
import sys
from typing import Iterator, Optional, Protocol, Set, Tuple

from tests.archive.room import Part, Room, Rows
from tests import TOP
from tests.archive.drawn import contents
from tests.archive.room import started
from tests.finding import found
from tests.waiting import PATIENCE, there_in, wait_for

# What is told of a fax: its status, pages, rows, fault, notes, form, and codings.
Told = Tuple[str, str, str, Optional[str], Set[str], Tuple[object, ...], Set[str]]
# Of how many faxes the program is asked too.
ASKED = 200


def told(rows: dict[bytes, dict[str, str]]) -> str:
    """The summary's counts of these rows."""
    counts = [sum(row["status"] == str(status) for row in rows.values()) for status in (0, 1, 3, 2)]
    return "{} good, {} faulty, {} not read".format(*counts) + (f", {counts[3]} of other kinds" if counts[3] else "")


def one(room: Room, paths: list[bytes]) -> dict[bytes, dict[str, str]]:
    """The rows by one worker, which are those of the program."""
    status, out, error = room.run("check", "tree", "--table", "one.sqlite")
    rows = room.rows("one.sqlite")
    room.claim("status and error stream", (status, error), (1, ""))
    room.claim("each fax is in the table", set(rows), set(paths))
    room.claim("the summary", out.decode().partition(" s, ")[0].rpartition("; ")[0],
               f"faxes {len(paths)}: {told(rows)}; {len(paths)} done now, 0 before, 0 gone")
    for path in paths[:ASKED]:
        room.claim(f"as the program: {path!r}", by_table(rows[path]), by_program(room, path))
    return rows


def by_table(row: dict[str, str]) -> Told:
    """What a row says, as the program's check and list do."""
    fault = f"{row['fault_page']} {row['fault_row']} {row['fault']}" if row["fault"] else None
    notes = set(row["notes"].split())
    form = row["width"], *(round(float(row[name]), 6) if row[name] else None for name in "xy")
    return row["status"], row["pages"], row["rows"], fault, notes, form, set(row["codings"].split())


def by_program(room: Room, path: bytes) -> Told:
    """The same by the program."""
    said = []
    for command in ("check", "list"):
        with open(path, "rb") as file:
            said.append(subprocess.run([room.program, command], stdin=file, capture_output=True, text=True, check=False))
    checked, listing = said
    pages, rows = found(r"^pages (\d+) rows (\d+)", checked.stdout, re.M).groups()
    fault = re.match(r"fault page (\d+) row (\d+): (\w+)", checked.stderr)
    listed = re.findall(r"^page \d+ (\d+) \d+ (\w+) .* (\d+/\d+) (\d+/\d+) (\d)$", listing.stdout, re.M)
    form: Tuple[object, ...] = ("", None, None)
    if listed:
        inch = 2.54 if listed[0][4] == "3" else 1
        form = listed[0][0], *(round(float(fractions.Fraction(text)) * inch, 6) for text in listed[0][2:4])
    status = contents.OTHER if fault and fault.group(3) in contents.OTHER_KINDS else checked.returncode
    return (str(status), pages, rows, " ".join(fault.groups()) if fault else None,
            set(re.findall(r"N\d (\w+)$", checked.stdout, re.M)), form, {it[1] for it in listed})


def same(room: Room, name: str, table: str, reference: Rows, *words: str, **more: str) -> None:
    """A run whose table is the same but for the seconds."""
    got = room.summary("check", "tree", "--table", table, *words, **more)
    room.claim(f"{name}: status and summary", got,
               (1, f"faxes {len(reference)}: {told(reference)}; {len(reference)} done now, 0 before, 0 gone"))
    room.claim(f"{name}: the same table", room.rows(table) == reference)


def processes(room: Room, _: list[bytes], reference: Rows) -> None:
    same(room, "four workers", "four.sqlite", reference, "--processes", "4")
    same(room, "four workers in time", "timed.sqlite", reference, "--processes", "4", "--timeout", "30")


def array(room: Room, paths: list[bytes], reference: Rows) -> None:
    """Tasks of an array, in its several forms, and one table of their parts."""
    for least, step in ((0, 1), (5, 3)):
        parts = []
        for task in range(4):
            parts.append(f"part-{step}-{task}.sqlite")
            slurm = dict(SLURM_ARRAY_TASK_ID=least + task * step, SLURM_ARRAY_TASK_COUNT=4, SLURM_ARRAY_TASK_MIN=least,
                         SLURM_ARRAY_TASK_STEP=step)
            room.run("check", "tree", "--table", parts[-1], **{name: str(value) for name, value in slurm.items()})
        sizes = [len(room.rows(part)) for part in parts]
        room.claim(f"each task has its share: {sizes}", sum(sizes) == len(paths) and min(sizes) > len(paths) / 5)
        lacking = room.run("merge", f"lacking-{step}.sqlite", *parts[1:])
        room.claim("a part that is missing is named", (lacking[0], "no part of share 0/4" in lacking[2]), (3, True))
        got = room.run("merge", f"merged-{step}.sqlite", *parts)
        room.claim("the parts as one", got, (1, f"faxes {len(paths)}: {told(reference)}\n".encode(), ""))
        room.claim("the parts as one table", room.rows(f"merged-{step}.sqlite") == reference)
    uneven = room.run("check", "tree", "--table", "uneven.sqlite", SLURM_ARRAY_TASK_ID="7", SLURM_ARRAY_TASK_COUNT="3",
                      SLURM_ARRAY_TASK_MIN="1", SLURM_ARRAY_TASK_STEP="1")
    room.claim("uneven steps are refused", (uneven[0], "--share" in uneven[2]), (2, True))
    summary = room.summary("check", "tree", "--table", "merged-1.sqlite")
    room.claim("a merged table goes on as one", summary,
               (1, f"faxes {len(paths)}: {told(reference)}; 0 done now, {len(paths)} before, 0 gone"))


def dask(room: Room, _: list[bytes], reference: Rows) -> None:
    if not room.dask:
        print("SKIPPED: Dask (python3-distributed) is not installed, so: no cluster of it is tried")
        got = room.run("check", "tree", "--table", "none.sqlite", "--dask")
        room.claim("without Dask it is said", (got[0], "python3-distributed" in got[2]), (3, True))
        return
    same(room, "Dask here", "dask.sqlite", reference, "--dask", "--processes", "2", python=room.dask)
    with scheduler(room) as address:
        same(room, "a scheduler of Dask", "scheduler.sqlite", reference, "--scheduler", address, python=room.dask)


class Place(Protocol):
    """A folder, and what a scheduler needs: the Python that has Dask, and the library."""

    dask: str | None
    library: str

    def __call__(self, name: str) -> str: ...


@contextlib.contextmanager
def scheduler(room: Place, **more: str) -> Iterator[str]:
    """The address of a scheduler with two workers, on loopback."""
    told_python = dict(os.environ, FAXPAGES_LIBRARY=room.library, PYTHONPATH=os.path.join(TOP, "python")) | more
    python = room.dask or sys.executable
    cli = [python, "-m"]
    with contextlib.ExitStack() as stack:
        words = ["distributed.cli.dask_scheduler", "--host", "127.0.0.1", "--port", "0", "--no-dashboard",
                 "--scheduler-file", room("scheduler.json")]
        server = stack.enter_context(started([*cli, *words], told_python))
        wait_for(lambda: address_in(room("scheduler.json")) or server.poll() is not None)
        address = address_in(room("scheduler.json")) or ""
        for number in range(2):
            words = ["distributed.cli.dask_worker", address, "--nthreads", "1", "--no-dashboard", "--no-nanny",
                     "--local-directory", room(f"worker-{number}")]
            stack.enter_context(started([*cli, *words], told_python))
        ready = f"import distributed as d; d.Client({address!r}, timeout={PATIENCE}).wait_for_workers(2)"
        subprocess.run([python, "-c", ready], timeout=PATIENCE, check=True, stderr=subprocess.DEVNULL)
        yield address


def address_in(name: str) -> str | None:
    """The address of a scheduler, once it has written it to its file."""
    try:
        with open(name, encoding="utf-8") as file:
            return str(json.load(file)["address"])
    except (OSError, ValueError):
        return None


def interrupted(room: Room, paths: list[bytes], reference: Rows) -> None:
    """Killed by each signal in the middle, again and again, and then done."""
    for number in (signal.SIGKILL, signal.SIGTERM, signal.SIGINT):
        table = f"killed-{number.value}.sqlite"
        words = ["check", "tree", "--table", table, "--processes", "3"]
        count, status = room.interrupt(number, table, *words)
        room.claim(f"{number.name}: some rows are there: {count}", 0 < count < len(paths) and status == -number)
        again, _ = room.interrupt(number, table, *words)
        room.claim(f"{number.name}: none is lost: {count}, {again}", count < again < len(paths))
        status, summary = room.summary(*words)
        done = len(paths) - again
        room.claim(f"{number.name}: only the others are done", summary,
                   f"faxes {len(paths)}: {told(reference)}; {done} done now, {again} before, 0 gone")
        room.claim(f"{number.name}: the same table", room.rows(table) == reference)
    room.claim("no worker is left", left_in(room.folder), [])


def left_in(folder: str) -> list[int]:
    """The processes that run in a folder, of which some need a moment to end."""
    wait_for(lambda: not there_in(folder))
    return there_in(folder)


PARTS: list[Part] = [processes, array, dask, interrupted]
