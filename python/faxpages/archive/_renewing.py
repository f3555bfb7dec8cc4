"""Makes a table that is damaged anew: the old one is kept, and what of it can be read, and the marks at the copies, say
whose the copies are and which are the only ones. Its faxes are done again. The new one is made beside it, and has its
place once it knows all that: a run that is killed leaves the one or the other."""

from __future__ import annotations

import contextlib
import errno
import json
import os
import re
import shutil
import sqlite3
import stat
import tempfile
from typing import Any, Iterator, List, Set, Tuple

from . import _files as files
from ._database import ONLY_SUM, TableError, address, sum_of
from ._fax import FIELDS, Job
from ._run import say
from ._table import Table


# How a table is called while it is made, after the name that it will have; and what stands beside it then.
_MADE = re.compile(r"\.new-[a-z0-9_]{8}(-journal|-lock)?")


def renew(name: str, job: Job) -> str:
    """Makes a damaged table anew: under which name the old one is kept."""
    name = os.path.realpath(name)
    try:
        lock = files.lock(f"{name}-lock")
    except BlockingIOError:
        raise TableError(f"another run writes to {name}") from None
    with lock:
        folder, last = os.path.split(name)
        beginning = os.fsdecode(b"." + os.fsencode(last)[:99])
        _sweep(folder, beginning)
        number, new = tempfile.mkstemp(prefix=f"{beginning}.new-", dir=folder)
        os.close(number)
        told = os.stat(name)
        with contextlib.suppress(OSError):
            # Whose it was may write to it again, also where root makes it anew.
            os.chown(new, told.st_uid, told.st_gid)
        os.chmod(new, stat.S_IMODE(told.st_mode))
        with Table(new) as table:
            _take_over(table, name, job)
        os.unlink(f"{new}-lock")
        aside = _keep_aside(name)
        os.replace(new, name)
        _keep_names(folder)
    return aside


def _sweep(folder: str, beginning: str) -> None:
    """Takes away what runs have left that were killed while they made a table anew, and nothing else."""
    for name in os.listdir(folder):
        if name.startswith(beginning) and _MADE.fullmatch(name[len(beginning):]):
            path = os.path.join(folder, name)
            if stat.S_ISREG(os.lstat(path).st_mode):
                os.unlink(path)


def _keep_names(folder: str) -> None:
    """Sees to it that the names of a folder are on the disk."""
    number = os.open(folder, os.O_RDONLY)
    try:
        os.fsync(number)
    finally:
        os.close(number)


def _keep_aside(name: str) -> str:
    """Gives a damaged table another name too, over nothing: which one."""
    number = 1
    while True:
        aside = f"{name}-damaged" + (f"-{number}" if number > 1 else "")
        try:
            _link(name, aside)
            break
        except FileExistsError:
            if os.path.samestat(os.lstat(name), os.lstat(aside)):
                break
        number += 1
    # What SQLite would put back into the new table.
    with contextlib.suppress(FileNotFoundError):
        os.replace(f"{name}-journal", f"{aside}-journal")
    return aside


def _link(name: str, aside: str) -> None:
    """A second name for a file, or a copy where the file system has no links."""
    try:
        os.link(name, aside)
    except OSError as error:
        if error.errno not in (errno.EPERM, errno.EOPNOTSUPP, errno.ENOSYS, errno.EMLINK):
            raise
        with open(name, "rb") as old, open(aside, "xb") as copy:
            shutil.copyfileobj(old, copy)
            copy.flush()
            os.fsync(copy.fileno())


def _take_over(table: Table, damaged: str, job: Job) -> None:
    """Takes over what can be read of a damaged table, and what the marks at copies say."""
    with contextlib.closing(sqlite3.connect(address(damaged, False), uri=True)) as base:
        base.create_function("row_sum", -1, sum_of, deterministic=True)
        parts = _numbers(base)
        marks = list(files.marks(job.target)) if job.target is not None else []
        if not parts:
            parts = _number_in({number for _, number, _, _ in marks})
        table.take_parts(parts)
        for rows in _some(base, "SELECT path, size, mtime, digest, deleted FROM deleted"):
            table.put_deletions(rows)
        for rows in _some(base, f"SELECT path, digest, fields_digest FROM only_copies WHERE sum IS {ONLY_SUM}"):
            table.put_only(rows)
        marked = [row for row in _some(base, "SELECT value FROM job WHERE name = 'only'") if row]
    # Where it is not known whether the copies of what was deleted are marked, they are looked at.
    table.set_marked(bool(marked))
    ending = job.copy_of(b"") if job.target is not None else b""
    for relative, number, only, digest in marks:
        if only and number in parts and relative.endswith(ending) and not relative.endswith(FIELDS):
            table.put_only([(relative[:len(relative) - len(ending)], digest, None)])
    table.commit_all()


def _number_in(marks: Set[str]) -> Set[str]:
    """The number of a table that cannot be read, where all copies below TARGET have marks of one table."""
    marks.discard("?")
    if len(marks) > 1:
        say("whose the copies are cannot be told, since marks of several tables are below TARGET: --adopt takes over "
            "those that are right")
    return marks if len(marks) == 1 else set()


def _numbers(base: sqlite3.Connection) -> Set[str]:
    """The number of a table, and of those that it was merged of, as far as they can be read."""
    found: Set[str] = set()
    for rows in _some(base, "SELECT name, value FROM job NOT INDEXED WHERE name IN ('table', 'parts')"):
        for name, value in rows:
            with contextlib.suppress(ValueError, TypeError):
                found.update([str(value)] if name == "table" else map(str, json.loads(value)))
    return found


def _some(base: sqlite3.Connection, query: str) -> Iterator[List[Tuple[Any, ...]]]:
    """The rows of a query, up to the first one that cannot be read."""
    with contextlib.suppress(sqlite3.Error, UnicodeDecodeError):
        for row in base.execute(query):
            yield [row]
