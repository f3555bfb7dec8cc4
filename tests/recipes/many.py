"""Recipes for many cores, and for a Slurm array with a stand-in for it."""

from __future__ import annotations

import csv
import io
import os
from typing import Iterator

from tests import Claim
from tests.convert import pages
from tests.recipes.archive import with_archive
from tests.recipes.room import HOSTILE, WIDTH, Room, Tests, lines_of_rows

# sbatch, as far as the recipes ask for it: it gives each task what Slurm gives it, one task after another, and ends
# with the greatest of their statuses.
SBATCH = """#!/bin/bash
for script; do :; done
array=$(sed -n 's/^#SBATCH --array=//p' "$script")
for word; do
    case $word in --array=*) array=${word#*=} ;; esac
done
numbers=() step=1
for range in ${array//,/ }; do
    case $range in *:*) step=${range#*:} ;; esac
    range=${range%:*}
    numbers+=($(seq "${range%-*}" "$step" "${range#*-}"))
done
export SLURM_ARRAY_TASK_COUNT=${#numbers[@]} SLURM_ARRAY_TASK_STEP=$step
export SLURM_ARRAY_TASK_MIN=${numbers[0]} SLURM_ARRAY_TASK_MAX=${numbers[-1]}
greatest=0
for task in "${numbers[@]}"; do
    SLURM_ARRAY_TASK_ID=$task sh "$script"
    ended=$?
    [ "$ended" -le "$greatest" ] || greatest=$ended
done
exit "$greatest"
"""
ARRAYS = ["0-3", "1-5", "0-6:2", "7"]
# So many cores the recipe for parts is told of.
CORES = 3


def cores_by_file(room: Room, commands: str) -> Iterator[Claim]:
    room.faxes("faxes")
    for number, name in enumerate(HOSTILE):
        room.others(f"faxes/{name}", number)
    given = room.names("faxes")
    status, _, said = room.bash(commands)
    yield "run", status, 123
    yield "the fault", said, "faxes/faulty.tif: " + room.rows("faxes/faulty.tif")[1].decode()
    yield "rows", room.contents("rows"), {f"{name}.txt": room.rows(f"faxes/{name}")[0] for name in given}


def cores_by_part(room: Room, commands: str) -> Iterator[Claim]:
    """All rows by parts; a part that is lost is done again, and no other; and a fault."""
    more = {"PARALLEL_HOME": room("parallel"), "LC_ALL": "C"}
    room.tool("nproc", f"#!/bin/sh\necho {CORES}\n")
    images = [pages.image(WIDTH, rows) for rows in pages.draw_document(4, "all", WIDTH)] * 24
    room.put("big.tif", pages.coded(room.program, ["-o", "mr"], b"".join(images)))
    wanted = lines_of_rows(room.rows("big.tif")[0])
    yield "run", room.bash(commands, **more)[0], 0
    yield "rows", room.get("big.txt"), wanted
    parts = room.names("parts")
    first = range(0, len(images), len(images) // CORES + 1)
    yield "parts", (len(parts), parts), (CORES, sorted(f"1:{page}:0.txt" for page in first))
    log = room.get("parts.log").splitlines(True)
    room.put("parts.log", b"".join(log[:-1]))
    for name in parts:
        room.put(f"parts/{name}", b"row 0 0 8\n")
    yield "again", room.bash(commands, **more)[0], 0
    done = log[-1].split(b"--cursor ")[1].split()[0].decode().strip("'") + ".txt"
    kept = [name for name in parts if room.get(f"parts/{name}") == b"row 0 0 8\n"]
    yield "only what the log lacks is done again", kept, [name for name in parts if name != done]
    room.bash("rm -r parts parts.log big.txt")
    room.sample("three-pages.tif", "big.tif")
    status, _, said = room.bash(commands, **more)
    yield "a fault: status", status != 0, True
    yield "a fault", ("fault page 2 row 1: DataEnds\n" in said, "big.txt" in room.names()), (True, False)
    rows = b"".join(lines_of_rows(room.get(f"parts/{name}")) for name in room.names("parts"))
    yield "a fault: rows before it", rows, lines_of_rows(room.rows("big.tif")[0])


def slurm(room: Room, commands: str) -> Iterator[Claim]:
    """Any range of the array makes the same table; a task that was lost is done again; a list is refused."""
    if not with_archive(room):
        print("not run: A Slurm array: no library beside the program")
        return
    room.tool("sbatch", SBATCH)
    given = room.faxes("faxes")
    yield "run", room.bash(commands)[0], 1
    rows = archive_rows(room)
    yield "a row for each fax", len(rows), len(given)
    os.remove(room("parts/3.sqlite"))
    yield "a task again", (room.bash(commands)[0], archive_rows(room)), (1, rows)
    for array in ARRAYS:
        room.bash("rm -r parts faxes.sqlite")
        yield f"--array={array}", room.bash(given_array(commands, array))[0], 1
        yield f"--array={array}: the same table", archive_rows(room), rows
    room.bash("rm -r parts faxes.sqlite")
    status, _, said = room.bash(given_array(commands, "1,5,7"))
    yield "--array=1,5,7", (status, "uneven steps: say --share I/N" in said, "no part of share 1/3, 2/3" in said), (
        3,
        True,
        True,
    )


def given_array(commands: str, array: str) -> str:
    """The commands, with another array."""
    return commands.replace("sbatch ", f"sbatch --array={array} ")


def archive_rows(room: Room) -> list[list[str]]:
    """The rows of the table but for the seconds."""
    printed = room.call("faxpages-archive", "table", "faxes.sqlite", "--csv")[1].decode(errors="surrogateescape")
    rows = csv.DictReader(io.StringIO(printed, newline=""))
    return [[value for name, value in row.items() if name != "seconds"] for row in rows]


TESTS: Tests = {
    "A folder of faxes on many cores": (["xargs"], cores_by_file),
    "Many cores, one big file": (["parallel", "awk"], cores_by_part),
    "A Slurm array": (["python3"], slurm),
}
