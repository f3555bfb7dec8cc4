#!/usr/bin/env python3
"""A drawn operator of ./install: two versions of small sources go over each other and are removed, a user changes,
adds and deletes files meanwhile, and calls are killed. What a user has written stays, and after each call that was not
killed all else is of one version, whole.

    tests/install/operated.py

FAXPAGES_SEED and FAXPAGES_STEPS say what is drawn, and how much. Ends with 'operated: N steps, N failed'."""

from __future__ import annotations

import hashlib
import os
import random
import shutil
import signal
import subprocess
import sys
import tempfile
import time
from typing import Dict, Iterator, Optional

sys.dont_write_bytecode = True

from tests import TOP  # noqa: E402
from tests.waiting import left_of, wait_for  # noqa: E402

SEED = os.environ.get("FAXPAGES_SEED", "20261130")
STEPS = int(os.environ.get("FAXPAGES_STEPS", "60"))
EPISODE = 20
LIST, FOLDERS = "share/doc/faxpages/installed", "share/doc/faxpages/folders"
# What ./install needs of the sources, but for recipes, in little; VERSION differs.
SOURCES = {
    "man/faxpages.1": ".Dt FAXPAGES 1\n", "man/faxpages-archive.1": ".Dt ARCHIVE 1\n",
    "man/faxpages-cups.1": ".Dt CUPS 1\n",
    "man/faxpages-recipes.1": ".Dt RECIPES @VERSION@\n", "man/faxpages.3": ".Dt FAXPAGES 3\n",
    "man/faxpages_reader.3": ".Dt READER 3\n", "include/faxpages_reader.h": "#include <faxpages.h>\n",
    "include/faxpages.h": "int faxpages_version(void);\n", "include/faxpages.pc": "Version: @VERSION@\n",
    "completions/faxpages.bash": "#\n", "completions/_faxpages": "#\n", "completions/faxpages.fish": "#\n",
    "completions/faxpages-archive.bash": "#\n", "completions/_faxpages-archive": "#\n",
    "completions/faxpages-archive.fish": "#\n", "licences/plain-installed.txt": "of:\nMIT\n", "README.md": "read\n",
    "SECURITY.md": "safe\n", "docs/ARCHIVE.md": "archive\n", "docs/RECIPES.md": "recipes\n",
    "docs/TROUBLESHOOTING.md": "no\n",
    "python/faxpages/__init__.py": "one = 1\n", "cups/faxpages.convs": "convs\n", "built/libfaxpages.so.1": "library\n",
    "built/faxpages": "program\n", "cups/faxpages_cups/__init__.py": "\n", "web/index.html": "<p>\n",
}  # fmt: skip
# The recipes of each version: what they do is other in each, or the same.
RECIPES = {"1": {"faxpages-one": "# one, 1\n", "faxpages-same": "# same\n", "faxpages-old": "# old\n"},
           "2": {"faxpages-one": "# one, 2\n", "faxpages-same": "# same\n", "faxpages-new": "# new\n"}}  # fmt: skip
State = Dict[str, str]


def make_sources(path: str, version: str) -> None:
    """Writes the sources of a version, with ./install as it is here."""
    texts = {**SOURCES, "VERSION": f"{version}.0.0\n", "built/faxpages": f"program {version}\n"}
    texts.update({f"recipes/{name}": text for name, text in RECIPES[version].items()})
    for name, text in texts.items():
        os.makedirs(os.path.dirname(f"{path}/{name}"), exist_ok=True)
        with open(f"{path}/{name}", "w", encoding="ascii") as file:
            file.write(text)
        os.chmod(f"{path}/{name}", 0o755 if name.startswith("recipes/") else 0o644)
    os.makedirs(f"{path}/tools")
    for name in ("install", "tools/program.sh", "tools/installed-before-1.6.txt"):
        shutil.copy(f"{TOP}/{name}", f"{path}/{name}")


def state_of(folder: str) -> State:
    """What each name of a folder is: a link's text, or a file's digest."""
    found = {}
    for place, folders, names in os.walk(folder):
        for name in [*names, *(it for it in folders if os.path.islink(f"{place}/{it}"))]:
            path = f"{place}/{name}"
            if os.path.islink(path):
                found[os.path.relpath(path, folder)] = f"link:{os.readlink(path)}"
            else:
                with open(path, "rb") as file:
                    found[os.path.relpath(path, folder)] = hashlib.sha256(file.read()).hexdigest()
    return found


class Operator:
    """A folder that is installed into, and what a user has done there."""

    def __init__(self, room: str, whole: Dict[str, State], seed: str) -> None:
        self.draw, self.room, self.whole = random.Random(seed), room, whole
        self.goal = f"{room}/goal"
        self.mine: State = {}
        self.gone: set[str] = set()
        # Whether a removal was killed, and no call has ended well since.
        self.removing = False
        shutil.rmtree(self.goal, ignore_errors=True)

    def a_place(self) -> str:
        return self.draw.choice(sorted({*self.whole["1"], *self.whole["2"], "bin/another", "share/man/man1/mine.1"}))

    def meddle(self) -> None:
        """A user writes, changes or deletes a file; of an install's own files at times."""
        place = self.a_place()
        path = f"{self.goal}/{place}"
        if place == LIST or os.path.isdir(path):
            return
        if self.draw.random() < 0.3 and os.path.lexists(path):
            os.remove(path)
            self.mine.pop(place, None)
            self.gone.add(place)
        elif self.draw.random() < 0.5:
            os.makedirs(os.path.dirname(path), exist_ok=True)
            if os.path.lexists(path):
                os.remove(path)
            with open(path, "w", encoding="ascii") as file:
                file.write(f"mine {self.draw.random()}\n")
            self.mine[place] = state_of(self.goal)[place]
            self.gone.discard(place)

    def call(self, version: str, *words: str) -> Optional[int]:
        """The status of a call, or nothing where it was killed."""
        leader = subprocess.Popen(
            [f"{self.room}/{version}/install", *words, "--prefix", self.goal], stdin=subprocess.DEVNULL,
            stdout=subprocess.DEVNULL, stderr=subprocess.PIPE, start_new_session=True,
            env={**os.environ, "FAXPAGES_BUILT": f"{self.room}/{version}/built", "LC_ALL": "C"},
        )  # fmt: skip
        if self.draw.random() < 0.4:
            time.sleep(self.draw.random() * 0.7)
            if leader.poll() is None:
                kind = self.draw.choice([signal.SIGKILL] * 3 + [signal.SIGTERM, signal.SIGINT])
                os.killpg(leader.pid, kind)
                leader.communicate()
                wait_for(lambda: not left_of(leader.pid))
                return None
        leader.communicate()
        return leader.returncode

    def one_version(self, found: State) -> Iterator[str]:
        """That what is not a user's is of one version, whole, but for what the user has deleted or has in its place."""
        others = {place: held for place, held in found.items() if self.mine.get(place) != held and place != FOLDERS}
        if LIST not in found:
            if others:
                yield f"without a list there are {sorted(others)[:3]}"
            return
        version = [it for it in self.whole if self.is_list_of(it)]
        if not version:
            yield "the list is of no version"
            return
        # A script that a user has among the commands is not on the list.
        whole = {place: held for place, held in self.whole[version[0]].items() if place != LIST}
        for place, held in others.items():
            if place != LIST and whole.get(place) != held:
                yield f"{place} is not of version {version[0]}"
        for place in whole.keys() - others.keys() - self.gone - self.mine.keys():
            if not place.startswith("bin/faxpages-") and not self.removing:
                yield f"{place} is missing of version {version[0]}"

    def is_list_of(self, version: str) -> bool:
        """Whether the list has lines of this version alone."""
        with open(f"{self.goal}/{LIST}", encoding="ascii") as file:
            lines = [line.rstrip("\n").split("  ", 1) for line in file]
        return all(self.whole[version].get(place) == held for held, place in lines)

    def wrong(self, status: Optional[int], words: list[str], version: str) -> Iterator[str]:
        """What a call did that it may not do."""
        found = state_of(self.goal) if os.path.isdir(self.goal) else {}
        for place, held in self.mine.items():
            if found.get(place) != held:
                yield f"{place} of the user is another, or gone"
        if status is None:
            return
        left = [place for place in found if ".faxpages-install." in place]
        if left:
            yield f"left: {left[:2]}"
        if status not in (0, 1):
            yield f"status {status}"
        yield from self.one_version(found)
        if not words and status == 0 and not self.is_list_of(version):
            yield "it is not installed"
        if words and status == 0 and (found.keys() - self.mine.keys()):
            yield f"not removed: {sorted(found.keys() - self.mine.keys())[:3]}"


def episode(operator: Operator, seed: str) -> Iterator[str]:
    for step in range(EPISODE):
        for _ in range(operator.draw.randrange(3)):
            if os.path.isdir(operator.goal) and operator.draw.random() < 0.5:
                operator.meddle()
        version = operator.draw.choice("12")
        words = ["--remove"] if operator.draw.random() < 0.25 else []
        status = operator.call(version, *words)
        if status == 0:
            # What an install put again is a user's no more, and what it removed is not missing.
            operator.gone.clear()
        operator.removing = status != 0 and (operator.removing or (words == ["--remove"] and status is None))
        for text in operator.wrong(status, words, version):
            yield f"seed {seed}, step {step}, {words or version}, status {status}: {text}"


def main() -> int:
    failed = steps = number = 0
    with tempfile.TemporaryDirectory() as room:
        whole = {}
        for version in RECIPES:
            make_sources(f"{room}/{version}", version)
            subprocess.run(
                [f"{room}/{version}/install", "--prefix", f"{room}/whole"], check=True, stdout=subprocess.DEVNULL,
                env={**os.environ, "FAXPAGES_BUILT": f"{room}/{version}/built"},
            )  # fmt: skip
            whole[version] = {place: held for place, held in state_of(f"{room}/whole").items() if place != FOLDERS}
            shutil.rmtree(f"{room}/whole")
        while steps < STEPS:
            seed = f"{SEED}/{number}"
            number, steps = number + 1, steps + EPISODE
            for text in episode(Operator(room, whole, seed), seed):
                failed += 1
                print(text)
    print(f"operated: {steps} steps, {failed} failed")
    return 1 if failed else 0


if __name__ == "__main__":
    sys.exit(main())
