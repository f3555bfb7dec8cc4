"""The drawn operator itself, where it was wrong once in some thousand steps: what its model lets through, and what it does
not; and runs that end at once."""

from __future__ import annotations

import errno
import functools
import itertools
import os
import random
import signal
import stat
from typing import Callable, Set
from unittest import mock

from tests.archive.drawn import contents, going, playing
from tests.archive.drawn.comparing import Before, Comparison, Difference
from tests.archive.drawn.model import Words
from tests.archive.drawn.operating import WORKERS, Episode
from tests.archive.only import two
from tests.archive.room import Part, Room

NAMES = (b"a.tif", b"A.TIF")
FORK = os.fork
# More calls of the system than a run makes before it has found that a fax is gone.
CALLS = 25


def episode_of(room: Room, name: str, faxes: list[bytes]) -> Episode:
    """A world with an empty tree, whose copies are taken as those in a folder that folds case."""
    import faxpages

    drawn = [contents.Content(data) for data in faxes]
    episode = Episode(room(name), random.Random(name), drawn, contents.Teller(faxpages, room.program), WORKERS)
    os.rename(episode.world.tree, episode.world.tree + b"-drawn")
    os.mkdir(episode.world.tree)
    episode.jobs[1] = episode.jobs[1]._replace(to=("mmr",), follow=False, fields=False, folds=True)
    episode.world.folds = True
    return episode


def compared(episode: Episode, words: Words = Words(), trouble: playing.Trouble = playing.Trouble()) -> str:
    """Converts, and compares: what the model says of it, which is nothing where it finds all right."""
    job, world = episode.jobs[1], episode.world
    before = Before(world, job, False)
    given = ["convert", *map(os.fsdecode, (world.tree, world.target)), "--to", "mmr", "--table",
             f"{os.fsdecode(world.tables)}/{job.table}", *(["--gone"] if words.gone else []), *(["--delete"] if words.delete else [])]
    ran = playing.run(given, os.fsdecode(world.folder), trouble)
    kind = Comparison if trouble.event is None else going.Gone
    try:
        kind(episode, job, words, trouble, before, ran).all()
    except Difference as difference:
        return str(difference)
    return ""


def rotted(room: Room, *_given: object) -> None:
    """A copy that changes without a trace is told by a run that reads it, and by no other: so that of a good fax may have
    rotted, but may not be another's."""
    one, other = two()
    for way in ("rots", "is another's"):
        episode = episode_of(room, f"modelled {way}", [one, other])
        world = episode.world
        copies = [os.path.join(world.target, name) for name in NAMES]
        world.put(os.path.join(world.tree, NAMES[0]), one, 0o644)
        room.claim(f"a copy that {way}: the first fax", compared(episode), "")
        world.put(os.path.join(world.tree, NAMES[1]), other, 0o644)
        # By either name it is one file, as in a folder that folds case.
        os.link(*copies)
        when, copy = os.stat(copies[0]).st_mtime_ns, functools.partial(episode.teller.copy, words=("mmr",))
        with open(copies[0], "r+b") as file:
            file.write(copy(one)[:-1] + b"\1" if way == "rots" else copy(other))
            file.truncate()
        os.utime(copies[0], ns=(when, when))
        room.claim(f"a copy that {way}", compared(episode), {
            "rots": "", "is another's": f"good, and another's copy: {NAMES[0]!r}"}[way])  # fmt: skip


def changed(room: Room, *_given: object) -> None:
    """A fax that changes once its copy is marked as the only one stays, and so does the copy, whatever is left of it."""
    from faxpages.archive import _files as files

    one, _ = two()
    episode = episode_of(room, "modelled changed", [one])
    episode.world.put(os.path.join(episode.world.tree, NAMES[0]), one, 0o644)
    with mock.patch.object(files, "delete", lambda *_given: "Changed"):
        room.claim("a fax that changed: it stays", compared(episode, Words(delete=True)), "")
    os.truncate(os.path.join(episode.world.target, NAMES[0]), 4)
    room.claim("a fax that changed: its copy is cut", compared(episode), "")


def renamed(room: Room, *_given: object) -> None:
    """Where TARGET is renamed before a run opens it the copies are made again, and these are what counts."""
    one, other = two()
    episode = episode_of(room, "modelled renamed", [one, other])
    world = episode.world
    world.put(os.path.join(world.tree, NAMES[0]), one, 0o644)
    room.claim("TARGET is renamed: before", compared(episode), "")
    world.put(os.path.join(world.tree, NAMES[0]), other, 0o644)
    goes = going.Goes(world.target, world.tree, False)
    room.claim("TARGET is renamed", compared(episode, Words(gone=True, delete=True), playing.Trouble(1, event=goes)), "")
    room.claim("TARGET is renamed: the fax is gone", os.listdir(world.tree), [])


def one_vanishes(room: Room, *_given: object) -> None:
    """Of two faxes whose copies have one name where case is folded, and the same bytes, one goes: the other one's stays."""
    one, _ = two()
    episode = episode_of(room, "modelled vanishing", [one])
    for name in NAMES:
        episode.world.put(os.path.join(episode.world.tree, name), one, 0o644, 10**18)
    room.claim("two faxes with one copy", compared(episode), "")
    os.unlink(os.path.join(episode.world.tree, NAMES[0]))
    for way in ("goes", "has gone"):
        room.claim(f"two faxes with one copy: one {way}", compared(episode, Words(gone=True)), "")


def going_on(room: Room, *_given: object) -> None:
    """A run that goes on looks at a copy that has another time, and its row stays as it was: then the copy is known so."""
    from faxpages.archive._table import Table

    one, _ = two()
    episode = episode_of(room, "modelled going on", [one])
    episode.world.put(os.path.join(episode.world.tree, NAMES[0]), one, 0o644)
    with mock.patch.object(Table, "end_run", lambda *_given: None):
        room.claim("a run that has not ended", compared(episode), "")
    os.utime(os.path.join(episode.world.target, NAMES[0]))
    for way in ("goes on", "is done", "is done again"):
        room.claim(f"a run that {way}", compared(episode), "")


def unknown(room: Room, *_given: object) -> None:
    """Where TARGET went, a table may know more of a copy than the model: then it is not known whether a run looks at it."""
    one, _ = two()
    episode = episode_of(room, "modelled unknown", [one])
    episode.world.put(os.path.join(episode.world.tree, NAMES[0]), one, 0o644)
    room.claim("a copy that is known", compared(episode), "")
    table, copy = episode.jobs[1].table, os.path.join(episode.world.target, NAMES[0])
    episode.model.stood[table].clear()
    episode.model.maybe[table].add(NAMES[0])
    when = os.stat(copy).st_mtime_ns
    with open(copy, "r+b") as file:
        file.write(b"of")
    os.utime(copy, ns=(when, when))
    room.claim("a copy that only its table knows", compared(episode), "")


def killed_amid(room: Room, *_given: object) -> None:
    """The copy of a fax that is gone is marked as the only one before its row goes: where a run is killed between, another
    fax of that name does not replace it, though its row is there still."""
    one, other = two()
    said = []
    for call in range(1, CALLS):
        episode = episode_of(room, f"modelled killed at {call}", [one, other])
        path = os.path.join(episode.world.tree, NAMES[0])
        episode.world.put(path, one, 0o644)
        said.append(compared(episode))
        os.unlink(path)
        said.append(compared(episode, Words(gone=True), playing.Trouble(call, kill=signal.SIGKILL)))
        episode.world.put(path, other, 0o644)
        said.append(compared(episode))
    room.claim("a run that finds a fax gone, killed at each call", list(filter(None, said)), [])


def late_fork() -> int:
    """A child that does not run, as on a machine with much to do."""
    process = FORK()
    if not process:
        os.kill(os.getpid(), signal.SIGSTOP)
    return process


def killed(room: Room, *_given: object) -> None:
    """A run that is killed before it says anything has said nothing, whatever one before it said."""
    os.mkdir(room("modelled killed"))
    at_once = playing.Engine(("--processes", "1"), seconds=0.0)
    for way in ("the first run", "one after it"):
        with mock.patch.object(os, "fork", late_fork):
            ran = playing.run(["table"], room("modelled killed"), playing.Trouble(1, kill=signal.SIGKILL), at_once, random.Random(1))
        room.claim(f"killed at once: {way}", tuple(ran), (-signal.SIGKILL, "", ""))
        playing.run(["table"], room("modelled killed"), playing.Trouble())


def refusing(call: Callable[[int, int], None], turns: Set[int]) -> Callable[[int, int], None]:
    """A call that the system refuses at these turns of it."""
    count = itertools.count(1)

    def instead(file: int, mode: int) -> None:
        if next(count) in turns:
            raise OSError(errno.EACCES, os.strerror(errno.EACCES))
        call(file, mode)
    return instead


def refused_amid(room: Room, *_given: object) -> None:
    """A copy into which its owner may not write is so again after its mark is changed, also where that is refused once."""
    from faxpages.archive import _marks as marks

    for turns, wanted in (({2}, (0o444, False)), ({2, 3}, (0o644, True))):
        path = room(f"modelled refused {len(turns)}")
        file = os.open(path, os.O_WRONLY | os.O_CREAT, 0o644)
        os.fchmod(file, 0o444)
        said = False
        with mock.patch.object(os, "fchmod", refusing(os.fchmod, turns)):
            try:
                marks._writable(file, mock.Mock(side_effect=[PermissionError, None]))
            except OSError:
                said = True
        os.close(file)
        room.claim(f"refused at {turns}: the mode, and whether it is said",
                   (stat.S_IMODE(os.stat(path).st_mode), said), wanted)


PARTS: list[Part] = [rotted, changed, renamed, one_vanishes, going_on, unknown, killed_amid, refused_amid, killed]
