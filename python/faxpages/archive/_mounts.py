"""Other ways to a folder than its own name: mounts of it, or of what stands in it."""

from __future__ import annotations

import contextlib
import os
import re
from typing import List, NamedTuple, Optional

_TABLE = "/proc/self/mountinfo"


class _Mount(NamedTuple):
    """What is mounted: the file system, which folder of it, and where."""

    device: bytes
    root: bytes
    point: bytes


def _mounts() -> List[_Mount]:
    """All mounts, those that hide others last; none where the system does not tell them."""
    found = []
    with contextlib.suppress(OSError), open(_TABLE, "rb") as file:
        for line in file:
            words = line.split()
            found.append(_Mount(words[2], _plain(words[3]), _plain(words[4])))
    return found


def _plain(word: bytes) -> bytes:
    """A name of the table of mounts, in which blanks and the like are octal."""
    return re.sub(rb"\\([0-7]{3})", lambda found: bytes([int(found.group(1), 8)]), word)


def below(inner: bytes, outer: bytes) -> Optional[bytes]:
    """The rest of a path below a folder, empty where it is the folder itself; or None."""
    if inner == outer:
        return b""
    start = os.path.join(outer, b"")
    return inner[len(start):] if inner.startswith(start) else None


def ways_into(folder: bytes) -> List[bytes]:
    """Where else a folder is mounted, or one in it, or what is mounted in it."""
    path, mounts = os.path.realpath(folder), _mounts()
    own = max((it for it in mounts if below(path, it.point) is not None), key=lambda it: len(it.point), default=None)
    inside = [it for it in mounts if below(it.point, path) is not None]
    sources = [(it.device, it.root) for it in inside]
    if own is not None:
        sources.append((own.device, os.path.normpath(os.path.join(own.root, below(path, own.point) or b""))))
    return [it.point for it in mounts if it not in inside and it != own and any(
        it.device == device and below(it.root, root) is not None for device, root in sources)]
