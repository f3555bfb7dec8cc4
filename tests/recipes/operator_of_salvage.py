"""A drawn operator of faxpages-salvage: faxes of all kinds and modes, folders whose names are taken, kills, and what
they left before. A folder is there whole or not at all, nothing else changes, and what was left goes."""

from __future__ import annotations

import os
import random
import shutil
import signal
import subprocess
import time
from typing import Iterator, NamedTuple, Optional

from tests import Claim
from tests.recipes.room import HOSTILE, Room, Tests
from tests.waiting import left_of, wait_for

SEED = os.environ.get("FAXPAGES_SEED", "20261130")
STEPS = int(os.environ.get("FAXPAGES_STEPS", "100"))
LEFT = ".faxpages-salvage."
# A folder of temporary files whose name libtiff takes for a list of pages.
FOLDERS = ["tmp", "tmp/a,1"]
# A name leads to a link's text, or to a file's bytes and mode.
Held = tuple[str, bytes, int]
State = dict[str, Held]


class Made(NamedTuple):
    """What a call makes of a fax: its status, and the names in the folder with their bytes, but for a PDF's, which has
    the time."""

    status: int
    files: dict[str, bytes]


def state_of(folder: str) -> State:
    """What each name below a folder leads to."""
    found: State = {}
    for place, folders, names in os.walk(folder):
        for name in [*names, *folders]:
            path = os.path.join(place, name)
            mode = os.lstat(path).st_mode
            if os.path.islink(path):
                held = os.readlink(path), b"", 0
            elif os.path.isdir(path):
                held = "folder", b"", mode
            else:
                with open(path, "rb") as file:
                    held = "file", file.read(), mode
            found[os.path.relpath(path, folder)] = held
    return found


class Operator:
    """The room, what is drawn, and what is made of each fax."""

    def __init__(self, room: Room) -> None:
        self.room, self.draw, self.temporary = room, random.Random(SEED), ""
        room.fax("good.tif", "mh", "marks")
        room.sample("damaged-fourth-page.tif", "bad.tif")
        self.faxes = {name: room.get(name) for name in ("good.tif", "bad.tif")}
        self.faxes |= {"empty.tif": b"", "none.tif": b"no fax\n", "cut.tif": self.faxes["bad.tif"][:300]}
        self.made: dict[str, Made] = {}
        for name, data in self.faxes.items():
            room.put(name, data)
            status = room.call("faxpages-salvage", name, "made")[0]
            self.made[name] = Made(status, self.in_folder("made"))
            shutil.rmtree(room("made"), ignore_errors=True)

    def in_folder(self, name: str) -> dict[str, bytes]:
        """What a folder holds; nothing where there is none."""
        if not os.path.isdir(self.room(name)):
            return {}
        found = self.room.contents(name)
        return {it: b"" if it.endswith(".pdf") else data for it, data in found.items()}

    def begin(self) -> None:
        """An empty folder with the faxes, and with what is in the way."""
        subprocess.run(["rm", "-rf", self.room(""), f"{self.room.path}/tmp"], check=True)
        os.makedirs(self.room("out"))
        os.makedirs(f"{self.room.path}/{FOLDERS[1]}")
        for name, data in self.faxes.items():
            self.room.put(name, data)
            os.chmod(self.room(name), self.draw.choice([0o600, 0o644, 0o640]))
        self.room.put("taken", b"of somebody else")
        self.room.put(f"out/{LEFT}longername/file", b"of somebody else")
        self.room.put(f"out/{LEFT}a_file", b"of somebody else")
        os.symlink("nowhere", self.room("link"))

    def salvage(self, fax: str, folder: str) -> Optional[int]:
        """The status, or nothing where the call was killed."""
        self.temporary = f"{self.room.path}/{self.draw.choice(FOLDERS)}"
        leader = self.room.start("env", f"TMPDIR={self.temporary}", "faxpages-salvage", fax, folder)
        if self.draw.random() < 0.5:
            time.sleep(self.draw.random() * 0.25)
            if leader.poll() is None:
                if self.draw.random() < 0.6:
                    os.killpg(leader.pid, signal.SIGKILL)
                else:
                    os.kill(leader.pid, self.draw.choice([signal.SIGTERM, signal.SIGHUP]))
                leader.wait()
                wait_for(lambda: not left_of(leader.pid))
                return None
        return leader.wait()

    def pass_time(self) -> None:
        """What was left is older than a minute."""
        for path in (self.room("out"), self.room(""), *(f"{self.room.path}/{it}" for it in FOLDERS)):
            for name in os.listdir(path):
                if "faxpages-salvage." in name:
                    os.utime(f"{path}/{name}", (time.time() - 100,) * 2)

    def wrong(self, before: State, fax: str, folder: str, status: Optional[int]) -> Iterator[str]:
        """What a call did that it may not do."""
        after = state_of(self.room(""))
        made = self.made[fax]
        for path, held in before.items():
            if not is_left(path) and after.get(path) != held:
                yield f"{path!r} is another, or gone"
        new = {path for path in after.keys() - before.keys() if not is_left(path)}
        stray = {path for path in new if path != folder and not path.startswith(f"{folder}/")}
        if stray:
            yield f"new: {sorted(stray)[:3]}"
        if folder in before or folder == "link":
            if status not in (None, 3) or new:
                yield f"status {status}, though the name is taken"
        elif status is not None and status != made.status:
            yield f"status {status}, wanted {made.status}"
        elif (status is not None and status < 3) != (folder in new) and status is not None:
            yield f"status {status}, and the folder is {'there' if folder in new else 'not there'}"
        elif folder in new and self.in_folder(folder) != made.files:
            yield f"the folder has {sorted(self.in_folder(folder))}"
        hidden = 0o777 & ~after[fax][2] & 0o044
        if any(after[path][2] & hidden for path in new):
            yield "others may read it who may not read the fax"

    def left(self, folder: str) -> list[str]:
        """What is left in the folders into which a call writes that was not killed."""
        return [name for place in (os.path.dirname(self.room(folder)), self.temporary) for name in os.listdir(place)
                if "faxpages-salvage." in name and not name.endswith(("longername", "a_file"))]


def is_left(path: str) -> bool:
    """Whether a path is of what a killed call left."""
    return LEFT in path and "longername" not in path and "a_file" not in path


def operate(room: Room, _: str) -> Iterator[Claim]:
    """Some hundred drawn calls, of which each tenth begins in an empty folder."""
    before_mask = os.umask(0o022)
    operator = Operator(room)
    for step in range(STEPS):
        if step % 10 == 0:
            operator.begin()
        fax = operator.draw.choice(sorted(operator.faxes))
        folder = operator.draw.choice(["a", "b c", "out/a", f"out/{HOSTILE[2]}", "out/a,1", "taken", "link", "out"])
        passed = operator.draw.random() < 0.3
        if passed:
            operator.pass_time()
        before = state_of(room(""))
        status = operator.salvage(fax, folder)
        found = list(operator.wrong(before, fax, folder, status))
        if passed and status in (0, 1):
            found += [f"left: {name}" for name in operator.left(folder)]
        if found:
            yield f"seed {SEED}, step {step}, {fax} {folder!r}", found, []
    os.umask(before_mask)
    yield "steps", STEPS > 0, True


EXTRA: Tests = {"A drawn operator of faxpages-salvage": (["pnmtopng", "tiffcp", "tiff2pdf"], operate)}
