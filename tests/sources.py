#!/usr/bin/env python3
"""The files of these sources, in each form in which people have them.

    tests/sources.py [--new]

prints their names, one a line, in the order of their bytes: those that git lists, where git is installed and these
sources are a work tree of its own; else those of the list FILES, which an archive by ./package has; else all that lie
here but what .gitignore names, as in an archive by `git archive`, or in a clone on a machine without git. With --new
git names what it does not list yet, too."""

from __future__ import annotations

import os
import subprocess
import sys
from pathlib import PurePosixPath

TOP = os.path.dirname(os.path.dirname(os.path.realpath(__file__)))
# By these another repository would answer, as that of a hook which runs a test.
OF_ANOTHER = ("GIT_DIR", "GIT_WORK_TREE", "GIT_INDEX_FILE")


def listed(new: bool = False, top: str = TOP) -> list[str]:
    """The names of the files of these sources, below the top and in order."""
    names = by_git(top, new) or by_list(top) or by_folder(top)
    return sorted((name for name in names if os.path.lexists(os.path.join(top, name))), key=os.fsencode)


def is_known(top: str = TOP) -> bool:
    """Whether git or FILES lists the sources. Else what a user has put beside them is taken as one of them."""
    return bool(by_git(top, False) or by_list(top))


def by_git(top: str, new: bool) -> list[str]:
    """What git lists here, or nothing: also where this folder lies in somebody else's work tree."""
    if not os.path.realpath(git(top, "rev-parse", "--show-toplevel").rstrip("\n")) == os.path.realpath(top):
        return []
    others = ["--others", "--exclude-standard"] if new else []
    return [name for name in git(top, "ls-files", "-z", "--cached", *others).split("\0") if name]


def git(top: str, *words: str) -> str:
    """What git says, or nothing where it is not installed or fails."""
    environment = {name: value for name, value in os.environ.items() if name not in OF_ANOTHER}
    try:
        ran = subprocess.run(["git", "-C", top, *words], env=environment, stdout=subprocess.PIPE,
                             stderr=subprocess.DEVNULL, check=False)
    except OSError:
        return ""
    return os.fsdecode(ran.stdout) if ran.returncode == 0 else ""


def by_list(top: str) -> list[str]:
    """What the list of an archive has, and the program and the library, which ship beside it."""
    try:
        with open(os.path.join(top, "FILES"), encoding="utf-8", errors="surrogateescape") as file:
            names = file.read().splitlines()
    except FileNotFoundError:
        return []
    return names + [f"shipped/{name}" for name in os.listdir(os.path.join(top, "shipped"))]


def by_folder(top: str) -> list[str]:
    """All files that lie here, but what a build makes."""
    with open(os.path.join(top, ".gitignore"), encoding="utf-8") as file:
        patterns = [line for line in file.read().splitlines() if line and not line.startswith("#")]
    found = []
    for base, folders, names in os.walk(top):
        place = os.path.relpath(base, top)
        folders[:] = [name for name in folders
                      if name != ".git" and not is_made(os.path.normpath(f"{place}/{name}"), True, patterns)]
        paths = [os.path.normpath(f"{place}/{name}") for name in names if name != ".git"]
        found += [path for path in paths if not is_made(path, False, patterns)]
    return found


def is_made(name: str, is_folder: bool, patterns: list[str]) -> bool:
    """Whether a build makes this file or folder, by the patterns of .gitignore."""
    for pattern in patterns:
        bare = pattern.rstrip("/")
        # One with a slash in it is of the top; another one of each folder.
        place = f"/{bare.lstrip('/')}" if "/" in bare else bare
        if (is_folder or bare == pattern) and PurePosixPath(f"/{name}").match(place):
            return True
    return False


def main() -> int:
    if sys.argv[1:] not in ([], ["--new"]):
        print("usage: tests/sources.py [--new]", file=sys.stderr)
        return 2
    sys.stdout.buffer.write(b"".join(os.fsencode(name) + b"\n" for name in listed(sys.argv[1:] == ["--new"])))
    return 0


if __name__ == "__main__":
    sys.exit(main())
