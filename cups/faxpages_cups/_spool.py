"""The folder into which the backend for CUPS puts faxes: whole, each once.

A fax is NAME.tif with NAME.job beside it, which comes last: whoever sends faxes goes by the job files. What was handed
on is kept in .faxpages, as NAME.begun from just before and as NAME.done from just after, so that a job that is begun
again is not handed on twice. One that was killed between these is in doubt: it is neither handed on nor dropped, but
held."""

from __future__ import annotations

import contextlib
import fcntl
import os
import re
import signal
import stat
from types import TracebackType
from typing import Callable, Dict, List, Optional, Sequence, Tuple, Type

from ._job import InDoubt, Refused, one_line

_KEPT = ".faxpages"
# A document of a job that is kept: the job's name, and the number of the document if there are several.
_DOCUMENT = re.compile(r"(.+)\.part(?:-[0-9]+)?\.pdf")


class Spool:
    """A folder for faxes, for one job. Of all files there it writes, and deletes, those of its name alone. Versions
    before 1.6 knew a job by an older name. Others than the folder's user and group may read its files only if they are
    public."""

    def __init__(self, folder: str, name: str, older: str, is_public: bool = False) -> None:
        self._path, self._name, self._older, self._is_public = folder, name, older, is_public
        self._folder = self._kept = self._lock = -1

    def __enter__(self) -> Spool:
        self._folder = os.open(self._path, os.O_RDONLY | os.O_DIRECTORY)
        if os.fstat(self._folder).st_mode & stat.S_IWOTH:
            raise Refused(f"anyone may write into {self._path}")
        try:
            os.mkdir(_KEPT, 0o770, dir_fd=self._folder)
        except FileExistsError:
            pass
        self._kept = os.open(_KEPT, os.O_RDONLY | os.O_DIRECTORY | os.O_NOFOLLOW, dir_fd=self._folder)
        told = os.fstat(self._kept)
        if told.st_uid != os.geteuid() or told.st_mode & stat.S_IRWXO:
            raise Refused(f"{self._path}/{_KEPT} is of another user, or open to others")
        # One process has a job, also where CUPS begins it again while one that it lost sight of goes on.
        while not self._takes_lock():
            os.close(self._lock)
        return self

    def _takes_lock(self) -> bool:
        """Waits for the lock; and tells whether it is still the file of its name, which who had it has deleted."""
        name = f"{self._name}.lock"
        self._lock = os.open(name, os.O_RDWR | os.O_CREAT | os.O_NOFOLLOW, 0o660, dir_fd=self._kept)
        fcntl.flock(self._lock, fcntl.LOCK_EX)
        try:
            return os.path.samestat(os.fstat(self._lock), os.stat(name, dir_fd=self._kept, follow_symlinks=False))
        except FileNotFoundError:
            return False

    def __exit__(self, kind: Optional[Type[BaseException]], _error: Optional[BaseException],
                 _trace: Optional[TracebackType]) -> None:
        if not kind or _is_watched():
            for name, its in self._documents():
                if its == self._name:
                    os.unlink(name, dir_fd=self._kept)
        for name in ("part.tif", "part.job", "lock"):
            self._remove(name)
        for file in (self._lock, self._kept, self._folder):
            os.close(file)

    def is_done(self) -> bool:
        """Whether the job was handed on before. Where that is in doubt, it is refused."""
        if self._is_there("done"):
            return True
        if self._is_there("begun") and self._is_visible("job"):
            self._mark_done()
            return True
        if self._is_there("begun"):
            raise Refused(f"it was ended just as it was handed on, and may be on its way: if it is not, delete "
                          f"{self._path}/{_KEPT}/{self._name}.begun and release the job, else cancel it")
        for kind in ("done", "begun"):
            # That name was a uuid, which a client may have chosen: whether it was this job nobody knows.
            if _exists(f"{self._older}.{kind}", self._kept):
                raise Refused(f"it may have been handed on by an earlier version: if it was not, delete "
                              f"{self._path}/{_KEPT}/{self._older}.{kind} and release the job, else cancel it")
        return False

    def keep(self, documents: Sequence[bytes]) -> None:
        """Keeps what is to be faxed until it is handed on or held: CUPS takes a job as done if its backend is
        killed. Of several documents each has a file, since who reads one file of all would see the last alone."""
        for number, data in enumerate(documents, 1):
            self._write("part.pdf" if len(documents) == 1 else f"part-{number}.pdf", data)

    def forsaken(self) -> List[str]:
        """The documents that jobs have left which were killed, and which CUPS took as done."""
        return [f"{self._path}/{_KEPT}/{name}" for name, its in self._documents() if self._is_free(its)]

    def _documents(self) -> List[Tuple[str, str]]:
        """The documents that are kept, with the names of their jobs."""
        found = (_DOCUMENT.fullmatch(name) for name in sorted(os.listdir(self._kept)))
        return [(it.group(), it.group(1)) for it in found if it]

    def _is_free(self, name: str) -> bool:
        """Whether no process has the job of another name."""
        if name == self._name:
            return False
        try:
            lock = os.open(f"{name}.lock", os.O_RDWR | os.O_NOFOLLOW, dir_fd=self._kept)
        except FileNotFoundError:
            return False
        try:
            fcntl.flock(lock, fcntl.LOCK_EX | fcntl.LOCK_NB)
        except BlockingIOError:
            return False
        finally:
            os.close(lock)
        return True

    def put(self, fax: bytes, told: Dict[str, str]) -> None:
        """Puts a fax and its job file into the folder."""
        lines = "".join(f"{name}: {one_line(value)}\n" for name, value in told.items())
        self._write("part.tif", fax)
        self._write("part.job", lines.encode())
        self._once(lambda: self._show(fax))

    def send(self, fax: bytes, sender: Callable[[str], None]) -> None:
        """Has a sender take a fax by its path."""
        self._write("part.tif", fax)
        self._once(lambda: sender(f"{self._path}/{_KEPT}/{self._name}.part.tif"))

    def _once(self, work: Callable[[], None]) -> None:
        """Does what hands the job on, between the two marks; where it fails it is as if it had not begun. A job that is
        cancelled from here on is handed on, and so is one whose seconds are over."""
        signal.signal(signal.SIGTERM, signal.SIG_IGN)
        signal.alarm(0)
        os.close(os.open(f"{self._name}.begun", os.O_WRONLY | os.O_CREAT | os.O_EXCL, 0o660, dir_fd=self._kept))
        os.fsync(self._kept)
        try:
            work()
        except InDoubt:
            raise
        except BaseException:
            self._remove("begun")
            raise
        # What is handed on is not taken back: where the mark cannot be made, the next run makes it of what it sees.
        with contextlib.suppress(OSError):
            os.fsync(self._folder)
        with contextlib.suppress(OSError):
            self._mark_done()

    def _show(self, fax: bytes) -> None:
        """Gives the files their names in the folder, at once each, over no other file: but the same fax may be there,
        which a job has left that was killed before its job file came."""
        if self._is_visible("tif"):
            with open(os.open(f"{self._name}.tif", os.O_RDONLY | os.O_NOFOLLOW, dir_fd=self._folder), "rb") as file:
                if file.read() != fax:
                    raise Refused(f"there is another {self._path}/{self._name}.tif")
            self._link("job")
            return
        self._link("tif")
        try:
            os.fsync(self._folder)
            self._link("job")
        except OSError:
            os.unlink(f"{self._name}.tif", dir_fd=self._folder)
            raise

    def _link(self, kind: str) -> None:
        os.link(f"{self._name}.part.{kind}", f"{self._name}.{kind}", src_dir_fd=self._kept, dst_dir_fd=self._folder,
                follow_symlinks=False)

    def _mark_done(self) -> None:
        os.rename(f"{self._name}.begun", f"{self._name}.done", src_dir_fd=self._kept, dst_dir_fd=self._kept)
        os.fsync(self._kept)

    def _write(self, kind: str, data: bytes) -> None:
        """Writes a file of the job's that nobody looks at yet, onto the disk."""
        self._remove(kind)
        place = os.open(f"{self._name}.{kind}", os.O_WRONLY | os.O_CREAT | os.O_EXCL, 0o660, dir_fd=self._kept)
        with open(place, "wb") as file:
            os.fchmod(place, self._mode())
            file.write(data)
            file.flush()
            os.fsync(place)

    def _mode(self) -> int:
        """Who may read and write a file, whatever CUPS's mask of modes: as the folder says, where it is closed to
        others. A folder that is open to them says nothing of faxes, which are confidential."""
        mode = os.fstat(self._folder).st_mode
        return mode & 0o666 if self._is_public or not mode & stat.S_IRWXO else 0o600

    def _remove(self, kind: str) -> None:
        try:
            os.unlink(f"{self._name}.{kind}", dir_fd=self._kept)
        except FileNotFoundError:
            pass

    def _is_there(self, kind: str) -> bool:
        return _exists(f"{self._name}.{kind}", self._kept)

    def _is_visible(self, kind: str) -> bool:
        return _exists(f"{self._name}.{kind}", self._folder)


def _is_watched() -> bool:
    """Whether the process is still there that tells CUPS what came of the job; where it is not, CUPS takes the job as
    done."""
    return os.environ.get("FAXPAGES_WATCHED_BY", str(os.getppid())) == str(os.getppid())


def _exists(name: str, folder: int) -> bool:
    try:
        os.stat(name, dir_fd=folder, follow_symlinks=False)
    except FileNotFoundError:
        return False
    return True
