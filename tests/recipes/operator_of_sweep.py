"""A drawn operator of faxpages-sweep: a tree whose faxes come, change, move and go, with links of both kinds, foreign
files in the places of what a sweep writes, and kills; after each sweep all is compared with a plain model."""

from __future__ import annotations

import errno
import os
import random
import re
import signal
import subprocess
import time
from typing import Iterator

from tests import Claim
from tests.recipes.room import Room, Tests
from tests.waiting import left_of, wait_for

SEED = os.environ.get("FAXPAGES_SEED", "20261128")
STEPS = int(os.environ.get("FAXPAGES_SWEEPS", "60"))
NAMES = ["a.tif", "b.TIFF", "in/a.tif", "in/c d.tif", "in/new\nline.tif", "in/deep/-o.tif", "e.tif", "f.tif", "no.txt"]
# What a fax is known by: device, number, time of its last change, and size.
Key = tuple[int, int, int, int]
FOREIGN = b"20261128 of somebody else\n"


class Operator:
    """The room, what is drawn, and which faxes are known to have been seen: their devices, numbers, times and sizes."""

    def __init__(self, room: Room, seed: str) -> None:
        self.room, self.draw = room, random.Random(seed)
        room.fax("good", "mh", "marks")
        room.sample("damaged-fourth-page.tif", "faulty")
        self.kinds = {room.get("good"): "good", room.get("faulty"): "faulty", b"": "faulty", b"no fax at all\n": "other",
                      b"II+\0\x08\0\0\0": "other"}  # fmt: skip
        self.seen: set[Key] = set()
        self.perhaps: set[Key] = set()
        self.unsure = False
        self.foreign: list[str] = []
        # The fax that another program has open to write.
        self.writer: int | None = None
        os.makedirs(room("tree"))
        for _ in range(self.draw.randrange(4, 14)):
            self.come()

    def a_place(self) -> str:
        return self.room(f"tree/{self.draw.choice(NAMES)}")

    def come(self) -> None:
        """A fax comes, or is another one now."""
        place = self.a_place()
        os.makedirs(os.path.dirname(place), exist_ok=True)
        if not os.path.islink(place):
            with open(place, "wb") as file:
                file.write(self.draw.choice(list(self.kinds)))
            when = time.time() - 120
            os.utime(place, (when, when))

    def meddle(self) -> None:
        """Something happens to the tree."""
        way = self.draw.choice(["come", "come", "come", "go", "move", "link", "name", "all go"])
        there = [path for path in self.files() if os.path.lexists(path)]
        place = self.a_place()
        if way == "come" or not there:
            self.come()
        elif way == "go":
            os.unlink(self.draw.choice(there))
        elif way == "all go":
            for path in there if self.draw.random() < 0.2 else there[:1]:
                os.unlink(path)
        elif not os.path.lexists(place) and os.path.isdir(os.path.dirname(place)):
            other = self.draw.choice(there)
            if way == "link":
                os.symlink(self.draw.choice([other, "nowhere"]), place)
            elif way == "name" and not os.path.islink(other):
                os.link(other, place)
            else:
                os.rename(other, place)
            # Of links that lead to themselves find says so itself, and the sweep ends with its status: none is drawn.
            for path in filter(leads_to_itself, self.files()):
                os.unlink(path)

    def write(self) -> None:
        """Another program has a fax open to write, or none, until the next sweep has ended."""
        if self.writer is not None:
            os.close(self.writer)
            self.writer = None
        there = sorted(path for path in self.files() if os.path.isfile(path))
        if there and not self.perhaps and self.draw.random() < 0.4:
            self.writer = os.open(self.draw.choice(there), os.O_WRONLY)

    def is_written(self, told: os.stat_result) -> bool:
        """Whether another program has this fax open to write."""
        return self.writer is not None and os.path.samestat(told, os.fstat(self.writer))

    def files(self) -> list[str]:
        """All that stands in the tree but for folders."""
        return [os.path.join(folder, name) for folder, _, names in os.walk(self.room("tree")) for name in names]

    def contents(self) -> dict[str, str | bytes]:
        """All files, by their names: what links lead to, or bytes."""
        return {path: os.readlink(path) if os.path.islink(path) else open(path, "rb").read() for path in self.files()}

    def faxes(self) -> dict[Key, str]:
        """What a sweep looks at: the kind of each, by what it is known by. A link that leads nowhere cannot be read."""
        found = {}
        for path in self.files():
            if path.lower().endswith((".tif", ".tiff")):
                told = os.stat(path) if os.path.exists(path) else os.lstat(path)
                kind = self.kinds[open(path, "rb").read()] if os.path.exists(path) else "not_read"
                key = told.st_dev, told.st_ino, told.st_ctime_ns, told.st_size
                # One that was seen is known as it was, whoever writes into it now.
                found[key] = "coming in" if self.is_written(told) and key not in self.seen else kind
        # A link that leads nowhere is looked at once a minute has passed, too.
        return {key: kind for key, kind in found.items() if kind != "not_read" or key[2] < (time.time() - 60) * 1e9}


def looked_at(faxes: dict[Key, str]) -> set[Key]:
    """The faxes of which something is known after a sweep."""
    return {key for key, kind in faxes.items() if kind not in ("not_read", "coming in")}


def leads_to_itself(path: str) -> bool:
    """Whether a path is of a link that leads to itself, by others or at once."""
    try:
        os.stat(path)
    except OSError as error:
        return error.errno == errno.ELOOP
    return False


def figures_of(room: Room) -> dict[str, str]:
    """The counts of the figures; nothing where there are none."""
    if not os.path.exists(room("figures")):
        return {}
    return dict(re.findall(r'^faxpages_faxes\{result="(\w+)"\} (\d+)$', room.get("figures").decode(), re.M))


def refused(operator: Operator, words: list[str], faxes: dict[Key, str]) -> bool:
    """Whether a sweep is to change nothing: a foreign file is in a place of its own, or much is gone."""
    room = operator.room
    if any(os.path.exists(room(name)) and room.get(name) == FOREIGN for name in ("state/seen", "figures")):
        return True
    there = {key[:2] for key in faxes}
    gone = sum(key[:2] not in there for key in operator.seen)
    return "--gone" not in words and gone > 0 and (gone == len(operator.seen) or gone > 10 and 10 * gone > len(operator.seen))


def compare(operator: Operator, words: list[str], before: dict[str, str | bytes], status: int | None,
            out: str) -> Iterator[str]:
    """What a sweep says or does that is not so."""
    room, faxes = operator.room, operator.faxes()
    if operator.contents() != before:
        yield "the tree has changed"
    for name in ("state/seen", "figures"):
        if name in operator.foreign and room.get(name) != FOREIGN:
            yield f"a foreign {name} is written over"
    if status is None:
        operator.perhaps |= set(faxes) | operator.seen
        operator.seen, operator.unsure = set(), True
        return
    if not operator.unsure and refused(operator, words, faxes) != (status == 3):
        yield f"status {status}: {out}"
    if status == 3 and not operator.foreign:
        # What was new is known, also where nothing is dropped since much is gone.
        operator.seen |= looked_at(faxes)
    if status not in (0, 1):
        return
    counts = {kind: list(faxes.values()).count(kind) for kind in ("good", "faulty", "other", "not_read")}
    got = {kind: int(number) for kind, number in figures_of(room).items()}
    if got != counts:
        yield f"figures {got}, wanted {counts}"
    new = {key for key, kind in faxes.items() if key not in operator.seen and kind != "coming in"}
    told = re.search(r"^new: (\d+) faxes", out, re.M)
    number = int(told.group(1)) if told else 0
    if not len(new - operator.perhaps) <= number <= len(new):
        yield f"new {number}, wanted {len(new)}: {out}"
    bad = sum(faxes[key] != "good" for key in new)
    if not operator.unsure and (status == 1) != (bad > 0):
        yield f"status {status} with {bad} bad ones: {out}"
    operator.seen = looked_at(faxes)
    operator.perhaps, operator.unsure = set(), False


def sweep(operator: Operator, words: list[str]) -> tuple[int | None, str]:
    """A sweep's status, or nothing where it was killed; and what it printed."""
    room = operator.room
    with open(f"{room.path}/swept", "wb") as out:
        leader = subprocess.Popen(["faxpages-sweep", *words], cwd=room(""), env=room.environment({}), stdout=out,
                                  stderr=out, stdin=subprocess.DEVNULL, start_new_session=True)  # fmt: skip
        is_killed = False
        if operator.draw.random() < 0.15:
            time.sleep(operator.draw.random() * 0.15)
            if leader.poll() is None:
                os.killpg(leader.pid, signal.SIGKILL)
                is_killed = True
        ended = leader.wait()
        wait_for(lambda: not left_of(leader.pid))
    with open(f"{room.path}/swept", encoding="utf-8", errors="replace") as said:
        return (None if is_killed else ended), said.read()


def foreign(operator: Operator) -> None:
    """Somebody else's file comes into a place of the sweep's, or goes again."""
    room = operator.room
    for name in operator.foreign:
        os.remove(room(name))
    operator.foreign = []
    if operator.draw.random() < 0.08:
        name = operator.draw.choice(["state/seen", "figures"])
        if name == "state/seen":
            operator.seen, operator.perhaps, operator.unsure = set(), set(), False
        os.makedirs(room("state"), exist_ok=True)
        room.put(name, FOREIGN)
        operator.foreign = [name]


def operate(room: Room, _: str) -> Iterator[Claim]:
    """Some drawn sweeps, in trees of their own."""
    steps, number = 0, 0
    while steps < STEPS:
        seed, number = f"{SEED}/{number}", number + 1
        subprocess.run(["rm", "-rf", room("")], check=True)
        os.mkdir(room(""))
        operator = Operator(room, seed)
        for step in range(25):
            for _meddled in range(operator.draw.randrange(3)):
                operator.meddle()
            foreign(operator)
            operator.write()
            words = (["--gone"] if operator.draw.random() < 0.3 else []) + ["tree", "state", "figures"]
            before = operator.contents()
            status, out = sweep(operator, words)
            found = list(compare(operator, words, before, status, out))
            steps += 1
            if found:
                yield f"seed {seed}, step {step}", found, []
                break
    yield "steps", steps >= STEPS, True


EXTRA: Tests = {"A drawn operator of faxpages-sweep": (["find", "flock"], operate)}
