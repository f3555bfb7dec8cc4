"""All that is written, moved or deleted beside the table: copies and their fields below TARGET, and faxes of TREE. No
other module of the package does that.

Below TARGET no link is followed, and what stands there and is not ours is left. A file is ours where its mark says so
(_marks.py), and its bytes are those that the mark or the table knows; without a mark, where they are those of
the table. In doubt a file is left."""

from __future__ import annotations

import contextlib
import errno
import fcntl
import hashlib
import os
import stat
import time
from typing import BinaryIO, Callable, Dict, Iterator, NamedTuple, Optional, Tuple

from ._incoming import why_incoming
from ._marks import (
    SALVAGED, Mark, Owner, Place, digest_of_only, is_only, is_salvaged, mark_of, name_of, only_of, put_mark, put_only,
    take_only,
)

_FOLDER = os.O_RDONLY | os.O_DIRECTORY | os.O_CLOEXEC
# A name that is a link is refused, and one that is a pipe is not waited for.
_FILE = os.O_RDONLY | os.O_NOFOLLOW | os.O_NONBLOCK | os.O_CLOEXEC
_PIECE = 1 << 20
_AT_WORK = "another run writes it"
# So many seconds another run may write a copy, or the worker of one that was killed, until it is told.
_WAIT = 2.0
# A digest of a table of version 1.4, which kept none; and the digest of a file that is larger than any copy.
NOT_KEPT, _LARGER = "?", "larger"
# The most bytes of a copy: as many again as of the largest fax.
MOST = 2 * 268435456


class NotOurs(Exception):
    """Another file is in the place, and is left."""


class Whole(NotOurs):
    """A copy of ours that is no salvaged one is in the place of one, and is left."""


class NotRight(Exception):
    """What was written is not what was to be written."""


class Stood(NamedTuple):
    """A file as it was written, or found: its size, its time in nanoseconds, its SHA-256, and whether it is ours."""

    size: int
    mtime: int
    digest: str
    ours: bool


class Seen(NamedTuple):
    """What a file is known by, as long as nothing changes it."""

    device: int
    inode: int
    size: int
    mtime: int
    ctime: int

    def is_same(self, other: "Seen") -> bool:
        """Whether this is the same file with the same bytes, whatever its marks are."""
        return self[:4] == other[:4]


def time_of(nanoseconds: int) -> int:
    """A time as a table can keep it, in 64 bits: of two that are equal so one is 584 years later."""
    return (nanoseconds + (1 << 63)) % (1 << 64) - (1 << 63)


def seen_of(told: os.stat_result) -> Seen:
    """What a file is known by."""
    return Seen(_number(told.st_dev), _number(told.st_ino), told.st_size, time_of(told.st_mtime_ns),
                time_of(told.st_ctime_ns))


def _number(number: int) -> int:
    """A number of a file as a table can keep it."""
    return time_of(number)


class Root:
    """A folder below which no link is followed. Folders that are those of a stranger's tree are refused."""

    def __init__(self, path: bytes, other: Optional[bytes] = None) -> None:
        self._path, self._folder = path, os.open(path, _FOLDER)
        told = os.stat(other) if other is not None else None
        self._other = (told.st_dev, told.st_ino) if told is not None else None
        self._kept: Tuple[bytes, Optional[int]] = b"", None

    @contextlib.contextmanager
    def place(self, relative: bytes, like: Optional[bytes] = None) -> Iterator[Place]:
        """Where a file stands. Folders that are missing are made, if like names the folder whose own they copy."""
        folder, name = os.path.split(relative)
        opened = self._open(folder, like)
        try:
            yield Place(opened, name)
        finally:
            os.close(opened)

    def look(self, relative: bytes) -> Optional[os.stat_result]:
        """What stands there; nothing where it cannot be seen. The last folder stays open, for the names after it."""
        folder, name = os.path.split(relative)
        if self._kept[1] is None or self._kept[0] != folder:
            self.forget()
            try:
                self._kept = folder, self._open(folder, None)
            except OSError:
                return None
        try:
            return os.stat(name, dir_fd=self._kept[1], follow_symlinks=False)
        except OSError:
            return None

    def is_empty(self) -> bool:
        """Whether nothing stands in the folder, as in one on which a disk is to be mounted."""
        with os.scandir(self._folder) as entries:
            return next(entries, None) is None

    def is_there(self) -> bool:
        """Whether the folder is still the one of its name."""
        try:
            return os.path.samestat(os.stat(self._path), os.fstat(self._folder))
        except OSError:
            return False

    def forget(self) -> None:
        """Closes the folder that look keeps open."""
        if self._kept[1] is not None:
            os.close(self._kept[1])
        self._kept = b"", None

    def _open(self, folder: bytes, like: Optional[bytes]) -> int:
        opened = os.dup(self._folder)
        try:
            for name in filter(None, folder.split(b"/")):
                place = Place(opened, name)
                like = os.path.join(like, name) if like is not None else None
                below = _folder_in(place) if like is None else _folder_like(place, like)
                os.close(opened)
                opened = below
                self._refuse_other(opened)
        except BaseException:
            os.close(opened)
            raise
        return opened

    def _refuse_other(self, folder: int) -> None:
        told = os.fstat(folder)
        if (told.st_dev, told.st_ino) == self._other:
            raise OSError(errno.ELOOP, "TREE stands below TARGET")


_roots: Dict[Tuple[bytes, Optional[bytes]], Root] = {}


def root_of(path: bytes, other: Optional[bytes] = None) -> Root:
    """A folder, opened once by each process."""
    if (path, other) not in _roots:
        _roots[path, other] = Root(path, other)
    return _roots[path, other]


def make_target(path: bytes, tree: bytes) -> None:
    """Makes the folder of copies, if it is not there, like the tree: whom that does not let in it does not either."""
    if os.path.isdir(path):
        return
    above, name = os.path.split(path)
    os.makedirs(above, exist_ok=True)
    folder = os.open(above, _FOLDER)
    try:
        _make_folder(Place(folder, name), tree)
    finally:
        os.close(folder)


def lock(name: str) -> BinaryIO:
    """A file beside the table, which one run at a time has. BlockingIOError says that another has it."""
    file = os.fdopen(os.open(name, os.O_WRONLY | os.O_APPEND | os.O_CREAT | os.O_NOFOLLOW | os.O_CLOEXEC, 0o666), "ab")
    try:
        fcntl.flock(file, fcntl.LOCK_EX | fcntl.LOCK_NB)
    except OSError:
        file.close()
        raise
    return file


def _folder_in(place: Place) -> int:
    """The folder in a place, open."""
    return os.open(place.name, _FOLDER | os.O_NOFOLLOW, dir_fd=place.folder)


def _folder_like(place: Place, original: bytes) -> int:
    """The folder in a place, open, which is made like another one where there is none."""
    try:
        return _folder_in(place)
    except FileNotFoundError:
        _make_folder(place, original)
        return _folder_in(place)


def _make_folder(place: Place, original: bytes) -> None:
    """Makes a folder like another one, where there is none."""
    try:
        os.mkdir(place.name, 0o700, dir_fd=place.folder)
    except FileExistsError:
        return
    made = _folder_in(place)
    try:
        # Whoever owns it can write into it, or no copy could be.
        _become(made, os.stat(original), 0o300)
    finally:
        os.close(made)


def _become(file: int, like: os.stat_result, least: int = 0) -> None:
    """Gives a file the owner, the group and the mode of another one, as far as this user may; never a wider mode."""
    owner = like.st_uid if os.geteuid() == 0 else -1
    with contextlib.suppress(OSError):
        os.fchown(file, owner, like.st_gid)
    mode = stat.S_IMODE(like.st_mode) & 0o777
    if os.fstat(file).st_gid != like.st_gid:
        # Its group has other people: they may do what all may.
        mode &= 0o707 | (mode & 0o007) << 3
    os.fchmod(file, mode | least)


def digest_of(file: int) -> str:
    """The SHA-256 of a file that is open; of one that is larger than any copy no digest, since it is not read."""
    if os.fstat(file).st_size > MOST:
        return _LARGER
    found = hashlib.sha256()
    at = 0
    while True:
        piece = os.pread(file, _PIECE, at)
        if not piece:
            return found.hexdigest()
        found.update(piece)
        at += len(piece)


@contextlib.contextmanager
def opened(place: Place) -> Iterator[Optional[int]]:
    """The regular file in a place, open to be read, or None where there is none. NotOurs: no regular file is there."""
    try:
        file = os.open(place.name, _FILE, dir_fd=place.folder)
    except FileNotFoundError:
        yield None
        return
    except OSError as error:
        raise NotOurs(error.strerror) from None
    try:
        if not stat.S_ISREG(os.fstat(file).st_mode):
            raise NotOurs("no regular file")
        yield file
    finally:
        os.close(file)


def read(place: Place, most: int) -> Tuple[bytes, os.stat_result]:
    """The bytes of the regular file in a place, of which there are at most so many, and what the system tells of it."""
    with opened(place) as file:
        if file is None:
            raise FileNotFoundError(errno.ENOENT, os.strerror(errno.ENOENT))
        told = os.fstat(file)
        if told.st_size > most:
            raise NotOurs(f"more than {most} bytes")
        pieces = [os.pread(file, _PIECE, at) for at in range(0, told.st_size, _PIECE)]
        return b"".join(pieces), told


class Copy(NamedTuple):
    """What is to stand in a place: bytes, like which file, its name below TARGET, the digest that the table knows of
    what stands there, whose copies are ours, and whether a file that has the bytes already becomes ours; whether it is
    a salvaged copy, and whether the table knows that one stands there."""

    data: bytes
    like: os.stat_result
    relative: bytes
    known: str
    owner: Owner
    adopt: bool
    salvaged: bool = False
    known_salvaged: bool = False

    def digest(self) -> str:
        """The SHA-256 of the bytes."""
        return hashlib.sha256(self.data).hexdigest()

    def mark(self) -> Mark:
        """What is noted at the file."""
        return Mark(self.owner.noted(), self.digest(), name_of(self.relative), SALVAGED if self.salvaged else "")


def stands(place: Place, copy: Copy) -> Tuple[Optional[Stood], Optional[Seen]]:
    """The file that stands in the place, if it has the bytes already; and what is to be replaced, if something is.
    NotOurs: it is not ours to replace."""
    with opened(place) as file:
        if file is None:
            return None, None
        told = os.fstat(file)
        found, mark, only = digest_of(file), mark_of(file), only_of(place, file)
        was_ours = mark.is_of(copy.owner, name_of(copy.relative)) if mark is not None else bool(copy.known)
        ours = was_ours and found in (copy.known, mark.digest if mark is not None else copy.known)
        if copy.salvaged and only is None and not _may_be_salvaged(copy, mark, found):
            raise Whole("a whole copy") if was_ours else NotOurs(_whose(copy, mark))
        if found == copy.digest():
            ours = ours or copy.adopt or (copy.known == NOT_KEPT and mark is None)
            # TARGET may have the fax itself under another name, which is no copy.
            ours = ours and not os.path.samestat(told, copy.like)
            # The only copy of a fax that is there again, since a run was killed before it was deleted.
            again = copy.known == NOT_KEPT and only is not None and (copy.owner.has(only) or only == "?")
            again = again and not copy.salvaged
            return Stood(told.st_size, time_of(told.st_mtime_ns), found, ours if only is None else again), seen_of(told)
        if only is not None:
            raise NotOurs("the only copy of a fax that is gone")
        if not ours and not (was_ours and _is_cut(file, told.st_size, copy.data)):
            raise NotOurs("changed since it was written" if was_ours else _whose(copy, mark))
        return None, seen_of(told)


def _may_be_salvaged(copy: Copy, mark: Optional[Mark], found: str) -> bool:
    """Whether what stands in the place of a salvaged copy, with this mark and digest, may be one: by its mark, by the
    table, or, where neither knows it, by its bytes. A whole copy has more than one that is salvaged later."""
    if mark is not None:
        return mark.kind == SALVAGED
    return copy.known_salvaged or (not copy.known and found == copy.digest())


def _whose(copy: Copy, mark: Optional[Mark]) -> str:
    """Why a file that is not ours is not."""
    if mark is not None and copy.owner.has(mark.number):
        return "the copy of a fax with another name"
    return "not written by this archive"


def _is_cut(file: int, size: int, data: bytes) -> bool:
    """Whether a file has the first bytes of these, so that nothing is lost with it."""
    return size < len(data) and os.pread(file, size, 0) == data[:size]


def put(place: Place, copy: Copy, is_right: Optional[Callable[[bytes], bool]]) -> Stood:
    """Writes a file whole or not at all, with the mode and the time of the one that it is like. NotRight: what was
    written is not right, and is gone again. NotOurs: another file is in the place, and stays, or another run writes
    it."""
    # One name for each copy, so that a run that was killed leaves nothing that the next does not take away. What is
    # left may be the copy under a second name, so it goes before the copy is looked at.
    part = Place(place.folder, b".faxpages-%s.part" % hashlib.sha256(place.name).hexdigest()[:32].encode())
    until = time.monotonic() + _WAIT
    while True:
        _remove_left(part)
        there, replaced = stands(place, copy)
        if there is not None:
            return _renewed(place, copy, there, replaced)
        file = _begun(part)
        if file is not None:
            break
        if time.monotonic() > until:
            raise NotOurs(_AT_WORK)
    mark = copy.mark()
    try:
        _fill(file, copy, mark)
        if is_right is not None and not is_right(os.pread(file, len(copy.data) + 1, 0)):
            raise NotRight
        if not _is_of(part, file):
            raise NotOurs(_AT_WORK)
        _move(part, place, replaced)
        return Stood(len(copy.data), time_of(os.fstat(file).st_mtime_ns), mark.digest, True)
    finally:
        _end(part, file)


def _fill(file: int, copy: Copy, mark: Mark) -> None:
    left = memoryview(copy.data)
    while left:
        left = left[os.write(file, left):]
    put_mark(file, mark)
    _become(file, copy.like)
    os.utime(file, ns=(copy.like.st_atime_ns, copy.like.st_mtime_ns))
    os.fsync(file)


def _move(part: Place, place: Place, replaced: Optional[Seen]) -> None:
    """Puts a part into its place, where what is to be replaced still stands, or still nothing."""
    if replaced is None:
        try:
            os.link(part.name, place.name, src_dir_fd=part.folder, dst_dir_fd=place.folder, follow_symlinks=False)
            return
        except FileExistsError:
            raise NotOurs("it came while the copy was made") from None
        except OSError as error:
            if error.errno not in (errno.EPERM, errno.EOPNOTSUPP, errno.ENOSYS, errno.EMLINK):
                raise
    if _seen(place) != replaced:
        raise NotOurs("it changed while the copy was made")
    os.replace(part.name, place.name, src_dir_fd=part.folder, dst_dir_fd=place.folder)


def _seen(place: Place) -> Optional[Seen]:
    try:
        return seen_of(os.stat(place.name, dir_fd=place.folder, follow_symlinks=False))
    except FileNotFoundError:
        return None


def _renewed(place: Place, copy: Copy, there: Stood, seen: Optional[Seen]) -> Stood:
    """A file that has the bytes already: if it is ours, it gets the mode and the time, unless another one has its place
    by now."""
    if not there.ours:
        return there
    with opened(place) as file:
        if file is None or seen is None or not seen_of(os.fstat(file)).is_same(seen):
            raise NotOurs("it went, or changed, while it was looked at")
        take_only(place, file)
        put_mark(file, copy.mark())
        _become(file, copy.like)
        os.utime(file, ns=(copy.like.st_atime_ns, copy.like.st_mtime_ns))
        return there._replace(mtime=time_of(os.fstat(file).st_mtime_ns))


def _begun(part: Place) -> Optional[int]:
    """A part that is begun, and held for as long as it is open. None: another run has begun it, or has taken this one
    away before it was held, as one that was left."""
    try:
        file = os.open(part.name, os.O_RDWR | os.O_CREAT | os.O_EXCL | os.O_NOFOLLOW | os.O_CLOEXEC, 0o600,
                       dir_fd=part.folder)
    except FileExistsError:
        return None
    held = False
    try:
        held = _is_free(file) and _is_of(part, file)
        return file if held else None
    finally:
        if not held:
            os.close(file)


def _is_of(part: Place, file: int) -> bool:
    """Whether the name of a part is still that of the file that is open."""
    with contextlib.suppress(FileNotFoundError):
        there = os.stat(part.name, dir_fd=part.folder, follow_symlinks=False)
        return os.path.samestat(there, os.fstat(file))
    return False


def _end(part: Place, file: int) -> None:
    """Closes the file of a part, and takes the part away, if it is still that file."""
    try:
        if _is_of(part, file):
            _remove(part)
    finally:
        os.close(file)


def _remove_left(part: Place) -> None:
    """Takes away a part that a run has left which was killed. NotOurs: another run holds it, also after a while."""
    try:
        file = os.open(part.name, _FILE, dir_fd=part.folder)
    except FileNotFoundError:
        return
    except OSError:
        _remove(part)
        return
    until = time.monotonic() + _WAIT
    while not _is_free(file):
        if time.monotonic() > until:
            os.close(file)
            raise NotOurs(_AT_WORK)
        time.sleep(_WAIT / 100)
    _end(part, file)


def _is_free(file: int) -> bool:
    """Whether nobody holds a part. Where the file system has no locks, nobody does."""
    try:
        fcntl.flock(file, fcntl.LOCK_EX | fcntl.LOCK_NB)
    except BlockingIOError:
        return False
    except OSError:
        pass
    return True


def _remove(part: Place) -> None:
    """Takes away a part, which is ours by its name, if it is there."""
    with contextlib.suppress(FileNotFoundError):
        os.unlink(part.name, dir_fd=part.folder)


def disown(target: Root, relative: bytes, owner: Owner, stood: Optional[Stood], salvaged: bool) -> Optional[str]:
    """Marks a copy whose fax is gone as the only one, so that no other fax of this name replaces it, unless it is
    marked so. Of one without a mark the caller says whether it is a salvaged one. Why it cannot be marked, or read, if
    so."""
    try:
        with target.place(relative) as place, opened(place) as file:
            if file is not None and not is_only(place, file) and _is_known(file, relative, owner, stood):
                put_only(place, file, owner, salvaged)
            return None
    except (NotOurs, OSError) as error:
        return _not_marked(target, relative, error)


def noted_salvaged(target: Root, relative: bytes) -> Optional[bool]:
    """Whether the marks of a copy say that it is a salvaged one; None where there are none, or no copy."""
    try:
        with target.place(relative) as place, opened(place) as file:
            return is_salvaged(file) if file is not None else None
    except (NotOurs, OSError):
        return None


def noted_digest(target: Root, relative: bytes) -> Optional[str]:
    """The digest that the mark of an only copy has; none where there is none. A run that was killed may have written a
    copy of which the table does not know."""
    try:
        with target.place(relative) as place, opened(place) as file:
            return digest_of_only(file) if file is not None else None
    except (NotOurs, OSError):
        return None


def _not_marked(target: Root, relative: bytes, error: Exception) -> Optional[str]:
    """Why a copy cannot be marked, by what came of it; None where no file is there that may be a copy."""
    if isinstance(error, NotOurs):
        there = target.look(relative)
        return str(error) if there is not None and stat.S_ISREG(there.st_mode) else None
    assert isinstance(error, OSError)
    return None if error.errno in (errno.ENOENT, errno.ENOTDIR, errno.ELOOP) else error.strerror


def mark_left(target: Root, relative: bytes, owner: Owner, mtime: Optional[float],
              digest: Optional[str]) -> Optional[str]:
    """Marks what is left in the place of the copy of a fax as the only one, unless it is marked so: if it has the time
    of the fax, as copies have, or this digest, or is ours by its mark. Why it cannot be marked, or read, if so."""
    try:
        with target.place(relative) as place, opened(place) as file:
            if file is None or is_only(place, file):
                return None
            mark = mark_of(file)
            ours = mark is not None and mark.is_of(owner, name_of(relative))
            if ours or os.fstat(file).st_mtime == mtime or (digest is not None and digest_of(file) == digest):
                put_only(place, file, owner)
            return None
    except (NotOurs, OSError) as error:
        return _not_marked(target, relative, error)


def _is_known(file: int, relative: bytes, owner: Owner, stood: Optional[Stood]) -> bool:
    """Whether a copy is ours by its mark; without one, whether it is as the table knows it."""
    mark, told = mark_of(file), os.fstat(file)
    if mark is not None:
        return mark.is_of(owner, name_of(relative))
    return stood is not None and stood.ours and (told.st_size, time_of(told.st_mtime_ns)) == (stood.size, stood.mtime)


def keep_only(target: Root, relative: bytes, copy: Seen, owner: Owner) -> Optional[str]:
    """Marks a copy as the only one of a fax that is about to be deleted; why not, if it is not as it was compared, or
    cannot be marked."""
    try:
        with target.place(relative) as place, opened(place) as file:
            if file is None or not seen_of(os.fstat(file)).is_same(copy):
                return "NoCopy"
            put_only(place, file, owner)
            return None
    except NotOurs as error:
        return f"NoCopy: {error}"
    except OSError as error:
        return f"NoMark: {error.strerror}"


def is_kept(target: Root, relative: bytes, copy: Seen) -> bool:
    """Whether the only copy stands in its place in TARGET, is as it was compared, and has its mark: the last look
    before its fax goes."""
    try:
        with target.place(relative) as place, opened(place) as file:
            return (file is not None and seen_of(os.fstat(file)).is_same(copy) and is_only(place, file)
                    and target.is_there())
    except (NotOurs, OSError):
        return False


def marks(path: bytes) -> Iterator[Tuple[bytes, str, bool, Optional[str]]]:
    """The copies below TARGET that have a mark: their names, the numbers of their tables, whether they are the only
    ones, and no salvaged ones, and their digests, where the marks have them."""
    for folder, _, names in os.walk(path):
        for name in names:
            relative = os.path.relpath(os.path.join(folder, name), path)
            with contextlib.suppress(NotOurs, OSError):
                with root_of(path).place(relative) as place, opened(place) as file:
                    number, mark = (only_of(place, file), mark_of(file)) if file is not None else (None, None)
                    if file is not None and number is not None:
                        yield relative, number, not is_salvaged(file), digest_of_only(file)
                    elif mark is not None and mark.name == name_of(relative):
                        yield relative, mark.number, False, mark.digest


def damage(target: Root, relative: bytes, digest: str) -> Tuple[str, Optional[str]]:
    """What is wrong with an only copy, which is to have this digest, and what else is known of it: NoCopy, Changed,
    or that it cannot be read; nothing where it is right. Where no digest was kept it only has to be there."""
    try:
        with target.place(relative) as place, opened(place) as file:
            if file is None:
                return "NoCopy", None
            same = digest == NOT_KEPT or digest_of(file) == digest
            return ("", None) if same else ("Changed", "changed since it was written")
    except NotOurs as error:
        there = target.look(relative)
        return "Open" if there is not None and stat.S_ISREG(there.st_mode) else "NoCopy", str(error)
    except OSError as error:
        gone = error.errno in (errno.ENOENT, errno.ENOTDIR, errno.ELOOP)
        return ("NoCopy", None) if gone else ("Read", error.strerror)


def is_as(target: Root, relative: bytes, copy: Seen) -> bool:
    """Whether a copy is as it was compared."""
    now = target.look(relative)
    return now is not None and seen_of(now).is_same(copy)


class Links:
    """When faxes changed last since another name of them was deleted, which is a change of them all."""

    def __init__(self) -> None:
        self._changed: Dict[Tuple[int, int], int] = {}

    def is_still(self, place: Place, fax: Seen) -> bool:
        """Whether a fax is as it was; of a link, what it leads to."""
        changed = self._changed.get((fax.device, fax.inode), fax.ctime)
        try:
            return seen_of(os.stat(place.name, dir_fd=place.folder)) == fax._replace(ctime=changed)
        except OSError:
            return False

    def unlink(self, place: Place, fax: Seen, copy_is_kept: Callable[[], bool]) -> Optional[str]:
        """Deletes a name of a fax, or a link to one, if it is not coming in, its copy is kept and it is as it was,
        which are looked at last; why not, if they are not."""
        file = os.open(place.name, os.O_PATH | os.O_NOFOLLOW | os.O_CLOEXEC, dir_fd=place.folder)
        try:
            incoming = _incoming(place)
            if incoming is not None:
                return incoming
            if not copy_is_kept():
                return "NoCopy"
            if not self.is_still(place, fax):
                return "Changed"
            os.unlink(place.name, dir_fd=place.folder)
            told = os.fstat(file)
            if told.st_nlink:
                self._changed[_number(told.st_dev), _number(told.st_ino)] = time_of(told.st_ctime_ns)
            return None
        finally:
            os.close(file)


def _incoming(place: Place) -> Optional[str]:
    """Why a fax may still be coming in; of a link, what it leads to."""
    file = os.open(place.name, os.O_RDONLY | os.O_NONBLOCK | os.O_CLOEXEC, dir_fd=place.folder)
    try:
        return why_incoming(file)
    finally:
        os.close(file)


def depth_of(path: bytes) -> int:
    """How many links lead from a name to a file, one after another."""
    for depth in range(40):
        try:
            path = os.path.join(os.path.dirname(path), os.readlink(path))
        except OSError:
            return depth
    return 40


def stays(tree: Root, relative: bytes, fax: Seen, links: Links) -> Optional[str]:
    """Why a fax is not to be deleted: it stands in a folder that a link leads to, it is not as it was, or it is
    coming in; else None."""
    try:
        with tree.place(relative) as place:
            return _incoming(place) if links.is_still(place, fax) else "Changed"
    except OSError as error:
        return "OutsideTree" if error.errno in (errno.ENOTDIR, errno.ELOOP) else "Changed"


def delete(tree: Root, relative: bytes, fax: Seen, links: Links, copy_is_kept: Callable[[], bool]) -> Optional[str]:
    """Deletes a fax that stands in the tree, is as it was and is not coming in, or a link, if its copy is kept; why
    it is not gone, if it is not."""
    try:
        with tree.place(relative) as place:
            return links.unlink(place, fax, copy_is_kept)
    except FileNotFoundError:
        return "Changed"
    except OSError as error:
        return f"NotDeleted: {error.strerror}"
