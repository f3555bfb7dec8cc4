"""A drawn operator of faxpages-receive: folders with names that get into each other's way, links in all directions,
foreign files, kills, and two calls at once; after each call nothing may be lost or written over."""

from __future__ import annotations

import contextlib
import fcntl
import os
import random
import signal
import subprocess
import time
from typing import Iterator, Union

from tests import Claim
from tests.recipes.room import HOSTILE, Room, Tests
from tests.waiting import left_of, wait_for

SEED = os.environ.get("FAXPAGES_SEED", "20261127")
STEPS = int(os.environ.get("FAXPAGES_STEPS", "300"))
NAMES = ["a", "a.report", "a.report.report", "b.tif", "b.tif.report", HOSTILE[2], HOSTILE[3], HOSTILE[5]]
# What a name leads to: "link" and its text, or "file" and its bytes.
Held = tuple[str, Union[str, bytes]]
# The status of `check`, and what it prints.
Checked = tuple[int, bytes]
FOLDERS = ["in", "in/sub", "out", "out/good", "out/faulty"]


class Operator:
    """The room, what is drawn, and the contents that files are made of."""

    def __init__(self, room: Room, seed: str) -> None:
        self.room, self.draw = room, random.Random(seed)
        room.fax("good.tif", "mh", "marks")
        room.others("other.tif", 2)
        room.sample("damaged-fourth-page.tif", "bad.tif")
        self.contents = [room.get(name) for name in ("good.tif", "other.tif", "bad.tif")] + [b"", b"no fax\n"]
        self.contents.append(self.contents[2][:300])
        self.reports: dict[bytes, Checked] = {}
        for name in ("good.tif", "other.tif", "bad.tif"):
            os.remove(room(name))
        for folder in ("in/sub", "out"):
            os.makedirs(room(folder))
        self.link_folders()

    def report(self, what: str, content: str | bytes) -> Checked | None:
        """The status of `check` and what it prints, of a file; a report may be taken for a fax too."""
        if what != "file" or not isinstance(content, bytes):
            return None
        if content not in self.reports:
            self.room.put("checked", content)
            self.reports[content] = self.room.run("check", name="checked")[0], self.room.report("checked")
            os.remove(self.room("checked"))
        return self.reports[content]

    def link_folders(self) -> None:
        """At times a folder of the sorted faxes is one that they come from, or both are one."""
        for name, to in (("good", "../in"), ("faulty", "../in/sub"), ("faulty", "good")):
            if self.draw.random() < 0.3 and not os.path.lexists(self.room(f"out/{name}")):
                os.symlink(to, self.room(f"out/{name}"))

    def files(self) -> dict[str, Held]:
        """What each name leads to: a link's text, or a file's bytes. Folders that are reached by links are left out."""
        found: dict[str, Held] = {}
        for place, folders, names in os.walk(self.room("")):
            for name in [*names, *(it for it in folders if os.path.islink(os.path.join(place, it)))]:
                path = os.path.relpath(os.path.join(place, name), self.room(""))
                whole = self.room(path)
                if os.path.islink(whole):
                    found[path] = "link", os.readlink(whole)
                else:
                    found[path] = "file", self.room.get(path)
        return found

    def real(self, path: str) -> str:
        """The one name of a place, with no link in its folder."""
        folder, name = os.path.split(self.room(path))
        return os.path.relpath(os.path.join(os.path.realpath(folder), name), os.path.realpath(self.room("")))

    def a_place(self) -> str:
        folders = [it for it in FOLDERS if os.path.isdir(self.room(it))]
        return f"{self.draw.choice(folders)}/{self.draw.choice(NAMES)}"

    def meddle(self) -> None:
        """Somebody else makes a file, a link or a second name of a file, where nothing is."""
        place = self.a_place()
        if os.path.lexists(self.room(place)):
            return
        kind = self.draw.choice(["file"] * 6 + ["link", "name"])
        others = [path for path, (what, _) in self.files().items() if what == "file"]
        if kind == "link":
            os.symlink(self.draw.choice(["nowhere", self.draw.choice(NAMES), "../in/a"]), self.room(place))
        elif kind == "name" and others:
            os.link(self.room(self.draw.choice(others)), self.room(place))
        else:
            self.room.put(place, self.draw.choice(self.contents))

    @contextlib.contextmanager
    def writing(self, fax: str) -> Iterator[bool]:
        """At times another program has the fax open to write, or has locked it. Whether one has."""
        if self.draw.random() < 0.8 or not os.path.isfile(self.room(fax)):
            yield False
            return
        with open(self.room(fax), "r+b" if self.draw.random() < 0.5 else "rb") as file:
            if file.mode == "rb":
                fcntl.flock(file, fcntl.LOCK_EX)
            yield True

    def receive(self, fax: str) -> int | None:
        """The status, or nothing where the call was killed."""
        leader = self.room.start("faxpages-receive", fax, "out")
        if self.draw.random() < 0.25:
            time.sleep(self.draw.random() * 0.04)
            if leader.poll() is None:
                os.killpg(leader.pid, signal.SIGKILL)
                leader.wait()
                # A call of the system that one of them had begun may go on for a moment.
                wait_for(lambda: not left_of(leader.pid))
                return None
        return leader.wait()


def lost(before: dict[str, Held], after: dict[str, Held], fax: str, status: int | None, place: str) -> Iterator[str]:
    """What a call did that it may not do."""
    for path, held in before.items():
        if path != fax and after.get(path) != held:
            yield f"{path!r} is another, or gone"
    contents = {content for what, content in after.values() if what == "file"}
    for path, (what, content) in before.items():
        if what == "file" and content not in contents:
            yield f"what was in {path!r} is nowhere"
    allowed = {place, f"{place}.report", fax}
    for path in after.keys() - before.keys() - allowed:
        if not (status is None and ".faxpages-receive." in path):
            yield f"{path!r} is new"
    if status not in (0, 1) and before.get(fax) != after.get(fax) and before.get(fax) != after.get(place):
        yield "the fax did not stay"


def sorted_right(operator: Operator, before: dict[str, Held], after: dict[str, Held], fax: str, status: int | None,
                 place: str) -> Iterator[str]:
    """What a call says that is not so."""
    what, content = before.get(fax, ("none", b""))
    checked = operator.report(what, content)
    if status in (0, 1):
        if checked is None or checked[0] != status:
            yield f"status {status}"
        elif after.get(place) != ("file", content) or after.get(f"{place}.report") != ("file", checked[1]):
            yield "the fax or its report is not in its place"
        elif fax != place and fax in after:
            yield "the fax is in two places"
    elif status not in (None, 3):
        yield f"status {status}"


def operate(room: Room, _: str) -> Iterator[Claim]:
    """Some hundred drawn calls in rooms of their own."""
    steps, number = 0, 0
    while steps < STEPS:
        seed, number = f"{SEED}/{number}", number + 1
        subprocess.run(["rm", "-rf", room("")], check=True)
        os.mkdir(room(""))
        operator = Operator(room, seed)
        for step in range(25):
            for _meddled in range(operator.draw.randrange(3)):
                operator.meddle()
            fax = operator.a_place()
            before, real = operator.files(), operator.real(fax)
            with operator.writing(fax) as is_written:
                status = operator.receive(fax)
            checked = operator.report(*before.get(real, ("none", b"")))
            folder = "good" if checked and checked[0] == 0 else "faulty"
            place = operator.real(f"out/{folder}/{os.path.basename(fax)}")
            after = operator.files()
            found = [*lost(before, after, real, status, place)]
            found += sorted_right(operator, before, after, real, status, place)
            if is_written and (status not in (None, 3) or after.get(real) != before.get(real)):
                found.append("a fax that another program writes did not stay")
            steps += 1
            if found:
                yield f"seed {seed}, step {step}, {fax!r}", found, []
        room.bash("rm -rf ../tmp/*")
    yield "steps", steps >= STEPS, True


EXTRA: Tests = {"A drawn operator of faxpages-receive": (["mktemp"], operate)}
