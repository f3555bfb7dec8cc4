"""Folders that are mounted in one another, and a folder that folds case, where root may mount."""

from __future__ import annotations

import os
import shutil
import subprocess
import sys

from tests import MODULE
from tests.archive.keeping import drawn, put
from tests.archive.room import Part, Room


def may_mount() -> bool:
    """Whether a folder can be mounted in a namespace of its own."""
    able = os.geteuid() == 0 and shutil.which("unshare") and shutil.which("mount")
    return bool(able) and subprocess.run(["unshare", "-m", "--propagation", "private", "mount", "-t", "tmpfs", "none",
                                          "/mnt"], capture_output=True, check=False).returncode == 0


def run(room: Room, mounts: list[str], *words: str) -> tuple[int, str]:
    """Runs the command among mounts of its own: the status, and what it says."""
    told = dict(os.environ, FAXPAGES_LIBRARY=room.library, PYTHONPATH=MODULE, PYTHONDONTWRITEBYTECODE="1")
    script = " && ".join([*mounts, f'exec {sys.executable} -m faxpages.archive "$@"'])
    ran = subprocess.run(["unshare", "-m", "--propagation", "private", "sh", "-c", script, "sh", *words], env=told,
                         cwd=room.folder, capture_output=True, text=True, check=False)
    return ran.returncode, ran.stderr


def mounted(room: Room, *_given: object) -> None:
    """TREE and TARGET that hold one another by mounts are refused, whatever is mounted where."""
    if not may_mount():
        print("SKIPPED: nothing can be mounted here, so: no folder is mounted in another one")
        return
    for name in ("sub/a.tif", "b.tif"):
        put(room(f"mounts/tree/{name}"), drawn()[""])
    for name in ("tree/point", "copies/sub", "copies/point", "else/inner", "far"):
        os.makedirs(room(f"mounts/{name}"))
    os.symlink("../far", room("mounts/tree/link"))
    words = ["convert", "mounts/tree", "mounts/copies", "--to", "mmr", "--table", "mounts/t.sqlite"]
    bind = f"mount --bind {room('mounts')}/{{}} {room('mounts')}/{{}}"
    cases: dict[str, tuple[list[str], list[str], int]] = {
        "a folder of TARGET in TREE": ([bind.format("copies/sub", "tree/point")], [], 2),
        "TARGET in TREE": ([bind.format("copies", "tree/point")], [], 2),
        "a folder of TREE in TARGET": ([bind.format("tree/sub", "copies/point")], [], 2),
        "what is mounted in TARGET, in TREE": (
            [bind.format("else", "copies/point"), bind.format("else/inner", "tree/point")], [], 2),
        "a folder of TARGET behind a link": ([bind.format("copies/sub", "far")], ["--follow"], 2),
        "the same without --follow": ([bind.format("copies/sub", "far")], [], 0),
        "a folder of neither": ([bind.format("else", "tree/point"), bind.format("far", "copies/point")], [], 0),
        "a file system for TARGET": ([f"mount -t tmpfs none {room('mounts')}/copies"], [], 0),
    }
    for name, (mounts, more, wanted) in cases.items():
        each = list(words)
        each[-1] = room(f"mounts/{len(name)}.sqlite")
        status, said = run(room, mounts, *each, *more)
        room.claim(f"{name}: {said}", status, wanted)


PARTS: list[Part] = [mounted]
