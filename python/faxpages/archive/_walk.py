"""The faxes of a tree, and this task's share of them."""

from __future__ import annotations

import os
import stat
import zlib
from typing import Callable, FrozenSet, Iterator, List, Mapping, NamedTuple, Optional, Tuple

from . import _mounts as mounts
from ._fax import Waiting

_ENDINGS = (b".tif", b".tiff")
Share = Tuple[int, int]
Place = Tuple[int, int]
Failed = Callable[[OSError], None]
WHOLE: Share = (0, 1)


class WrongShare(ValueError):
    """A share is none, or the array of Slurm has uneven steps."""


class WrongTarget(Exception):
    """The folder of copies stands in the tree, or the tree in it."""


def share_of(text: str) -> Share:
    """The share of a text I/N: I from 0 to N - 1."""
    part, _, count = text.partition("/")
    if not (part.isdecimal() and count.isdecimal() and int(part) < int(count)):
        raise WrongShare(f"not a share: {text!r}")
    return int(part), int(count)


def share_in_array(environment: Mapping[str, str]) -> Share:
    """The share of a task of a Slurm array, by the array's variables; else the whole."""
    names = ("TASK_ID", "TASK_COUNT", "TASK_MIN", "TASK_STEP")
    said = [environment.get(f"SLURM_ARRAY_{name}") for name in names]
    if said[0] is None:
        return WHOLE
    try:
        task, count, least, step = (int(it or "") for it in said)
    except ValueError:
        raise WrongShare("the array of Slurm has no TASK_COUNT, TASK_MIN or TASK_STEP: say --share I/N") from None
    part, rest = divmod(task - least, max(1, step))
    if rest or not 0 <= part < count:
        raise WrongShare("the array of Slurm has uneven steps: say --share I/N")
    return part, count


def place_of(folder: bytes) -> Place:
    """What a folder is known by, whatever it is called."""
    told = os.stat(folder)
    return told.st_dev, told.st_ino


def is_within(inner: bytes, outer: bytes) -> bool:
    """Whether a folder is another one, or stands in it, by whatever name. What is not there yet is to stand where its
    name says."""
    above = os.path.realpath(inner)
    while not os.path.isdir(above):
        above = os.path.dirname(above)
    found = place_of(outer)
    while place_of(above) != found:
        if above == os.path.dirname(above):
            return False
        above = os.path.dirname(above)
    return True


def refuse_one_in_the_other(tree: bytes, target: bytes) -> None:
    """WrongTarget where TREE and TARGET are one, or one stands in the other, by links or by mounts."""
    if is_within(target, tree) or os.path.isdir(target) and is_within(tree, target):
        raise WrongTarget("TREE and TARGET are one in the other")
    for one, other, said in ((target, tree, "TARGET is mounted in TREE"), (tree, target, "TREE is mounted in TARGET")):
        if os.path.isdir(one):
            for way in mounts.ways_into(one):
                if mounts.below(way, os.path.realpath(other)) is not None:
                    raise WrongTarget(f"a folder of {said}: {os.fsdecode(way)!r}")


class Way(NamedTuple):
    """How a tree is gone through: which share of its faxes, through links or not, and the folder of copies, which
    must not be met."""

    share: Share = WHOLE
    follow: bool = False
    target: Optional[bytes] = None


class Walk:
    """The faxes below a tree, folder by folder in order of their names: files that end with .tif or .tiff, of this
    share. Which share a fax is of depends on its name below the tree alone. Where links are followed, one that leads
    back to a folder above it is passed, and one that leads nowhere is a fax if it is called so, and else told.
    all counts the faxes of all shares."""

    def __init__(self, tree: bytes, way: Way, failed: Failed) -> None:
        self._tree, self._way, self._failed = tree, way, failed
        self._target = place_of(way.target) if way.target is not None else None
        self._inside = [] if way.target is None else [
            os.path.realpath(way.target), *(mounts.ways_into(way.target) if way.follow else [])]
        self.all = 0

    def faxes(self) -> Iterator[Waiting]:
        """Each fax, by its path below the tree."""
        share = self._way.share
        for folder, names in self._folders():
            for name in names:
                if not name.lower().endswith(_ENDINGS):
                    continue
                path = folder + name
                self.all += 1
                if share[1] > 1 and zlib.crc32(b"/" + path) % share[1] != share[0]:
                    continue
                fax = self._regular(path)
                if fax is not None:
                    yield fax

    def _folders(self) -> Iterator[Tuple[bytes, List[bytes]]]:
        """Each folder in order, as what stands before the names in it, with the names of the files there."""
        waiting: List[Tuple[bytes, FrozenSet[Place]]] = [(b"", frozenset())]
        while waiting:
            folder, above = waiting.pop()
            try:
                line = self._entered(folder, above)
                if line is None:
                    continue
                folders, names = self._listed(folder)
            except OSError as error:
                # A folder that has gone meanwhile is gone; but not the tree itself.
                if not folder or not isinstance(error, FileNotFoundError):
                    self._failed(error)
                continue
            yield folder, sorted(names)
            waiting += [(folder + name + b"/", line) for name in sorted(folders, reverse=True)]

    def _entered(self, folder: bytes, above: FrozenSet[Place]) -> Optional[FrozenSet[Place]]:
        """The folders from the tree to this one; None where it is one of those above it."""
        if self._target is None and not self._way.follow:
            return above
        path = os.path.join(self._tree, folder)
        place = place_of(path)
        if place == self._target:
            raise WrongTarget(f"TREE leads to TARGET by {os.fsdecode(folder)!r}")
        real = os.path.realpath(path) if self._way.follow else path
        if self._way.follow and any(mounts.below(real, it) is not None for it in self._inside):
            raise WrongTarget(f"TREE leads into TARGET by {os.fsdecode(folder)!r}")
        if place in above:
            return None
        return above | {place} if self._way.follow else above

    def _listed(self, folder: bytes) -> Tuple[List[bytes], List[bytes]]:
        """The names of the folders in a folder, and of the files; and of links, where they are followed."""
        folders: List[bytes] = []
        names: List[bytes] = []
        with os.scandir(os.path.join(self._tree, folder)) as entries:
            for entry in entries:
                linked = self._way.follow and entry.is_symlink()
                if self._leads_to_folder(entry) if linked else entry.is_dir(follow_symlinks=False):
                    folders.append(entry.name)
                elif linked or entry.is_file(follow_symlinks=False):
                    names.append(entry.name)
        return folders, names

    def _leads_to_folder(self, entry: "os.DirEntry[bytes]") -> bool:
        """Whether a link leads to a folder. One that cannot be followed is told, unless it is called as a fax."""
        try:
            return stat.S_ISDIR(os.stat(entry.path).st_mode)
        except OSError as error:
            if not entry.name.lower().endswith(_ENDINGS):
                self._failed(error)
            return False

    def _regular(self, path: bytes) -> Optional[Waiting]:
        """A regular file, with its size and mtime; None where it is none, or is gone. Where links are followed, one
        that leads to no file is there, and cannot be read."""
        whole = os.path.join(self._tree, path)
        try:
            told = os.lstat(whole)
            if stat.S_ISLNK(told.st_mode) and self._way.follow:
                try:
                    told = os.stat(whole)
                except OSError:
                    return Waiting(path, told.st_size, told.st_mtime)
        except FileNotFoundError:
            return None
        except OSError as error:
            self._failed(error)
            return None
        return Waiting(path, told.st_size, told.st_mtime) if stat.S_ISREG(told.st_mode) else None
