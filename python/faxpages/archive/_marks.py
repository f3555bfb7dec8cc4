"""The marks at the copies of an archive, by which it is known whose a copy is, and that it is the only one of its fax.

A copy has the number of the table that wrote it, its digest, and the name that it was written under, since in a folder
that folds case another name leads to it too. A copy whose fax is gone or is about to be deleted has another mark: it is
the only one, and is replaced by nothing, whatever a table says, which may be one out of a backup. Marks are extended
attributes. Where these cannot be kept a file beside the copy says that it is the only one; whose it is only the table
knows."""

from __future__ import annotations

import contextlib
import errno
import hashlib
import os
import stat
from typing import Callable, FrozenSet, NamedTuple, Optional

_MARK, _ONLY = "user.faxpages.copy", "user.faxpages.only"
# The last word of a mark at a salvaged copy.
SALVAGED = "salvaged"
_TEXT = b"The file %s is the only copy of a fax that is gone. Delete this file if it may be replaced.\n"


class Place(NamedTuple):
    """A folder that is open, and a name in it."""

    folder: int
    name: bytes


class Owner(NamedTuple):
    """Whose copies are ours: those of the table of this number, and of the tables that it was merged of."""

    number: str
    parts: FrozenSet[str] = frozenset()

    def has(self, number: str) -> bool:
        """Whether copies of the table of this number are ours."""
        return number == self.noted() or number in self.parts

    def noted(self) -> str:
        """The number as a mark has it, which is one word."""
        return self.number or "-"


class Mark(NamedTuple):
    """What is noted at a copy: the number of its table, its digest, its name as a digest, which versions before 1.6 did
    not note, and that it is a salvaged one."""

    number: str
    digest: str
    name: str = ""
    kind: str = ""

    def is_of(self, owner: Owner, name: str) -> bool:
        """Whether a copy with this mark, which is found under a name, is ours."""
        return owner.has(self.number) and self.name in ("", name)


def name_of(relative: bytes) -> str:
    """A name below TARGET, as a mark has it."""
    return hashlib.sha256(relative).hexdigest()[:32]


def mark_of(file: int) -> Optional[Mark]:
    """The mark of a file that is open."""
    words = _text_of(file, _MARK).split()
    return Mark(*words[:4]) if len(words) > 1 else None


def _text_of(file: int, attribute: str) -> str:
    try:
        return os.getxattr(file, attribute).decode("ascii", "replace")
    except OSError:
        return ""


def put_mark(file: int, mark: Mark) -> None:
    """Notes at a file whose it is. Where attributes cannot be kept, the table alone knows it."""
    with contextlib.suppress(OSError):
        os.setxattr(file, _MARK, " ".join(mark).rstrip().encode())


def only_of(place: Place, file: int) -> Optional[str]:
    """The number of the table that has said that a copy is the only one; none where none has."""
    said = _text_of(file, _ONLY).split()
    if said:
        return said[0]
    try:
        return "?" if stat.S_ISREG(os.stat(_beside(place), dir_fd=place.folder, follow_symlinks=False).st_mode) else None
    except OSError:
        return None


def digest_of_only(file: int) -> Optional[str]:
    """The digest that the mark of an only copy has."""
    said = _text_of(file, _ONLY).split()
    return said[1] if len(said) > 1 else None


def is_salvaged(file: int) -> Optional[bool]:
    """Whether a copy is a salvaged one, by its marks; None where it has none."""
    mark, said = mark_of(file), _text_of(file, _ONLY).split()
    if mark is not None:
        return mark.kind == SALVAGED
    return said[2:] == [SALVAGED] if said else None


def is_only(place: Place, file: int) -> bool:
    """Whether a copy is the only one."""
    return only_of(place, file) is not None


def put_only(place: Place, file: int, owner: Owner, salvaged: bool = False) -> None:
    """Notes that a copy is the only one, and, where it has no mark that says so, whether it is a salvaged one. OSError
    says that this cannot be noted."""
    try:
        # With the digest a table that is damaged can be made anew.
        mark = mark_of(file)
        said = owner.noted() + (f" {mark.digest}" if mark is not None else " ?" if salvaged else "")
        said += f" {SALVAGED}" if (salvaged if mark is None else mark.kind == SALVAGED) else ""
        _writable(file, lambda: os.setxattr(file, _ONLY, said.encode()))
        _writable(file, lambda: _remove(file, _MARK))
    except OSError as error:
        if error.errno not in (errno.ENOTSUP, errno.EOPNOTSUPP, errno.ENOSYS):
            raise
        _put_beside(place)


def take_only(place: Place, file: int) -> None:
    """Takes that mark away: the fax of the copy is there again."""
    _writable(file, lambda: _remove(file, _ONLY))
    with contextlib.suppress(FileNotFoundError):
        os.unlink(_beside(place), dir_fd=place.folder)


def _remove(file: int, attribute: str) -> None:
    try:
        os.removexattr(file, attribute)
    except OSError as error:
        if error.errno not in (errno.ENODATA, errno.ENOTSUP, errno.EOPNOTSUPP, errno.ENOSYS):
            raise


def _writable(file: int, change: Callable[[], None]) -> None:
    """Changes a mark, also where the file's owner may not write into it: the system asks for that. A run that is killed
    just then, or to which the system refuses twice to take that away, leaves that the owner may."""
    try:
        change()
    except PermissionError:
        mode = stat.S_IMODE(os.fstat(file).st_mode)
        os.fchmod(file, mode | 0o200)
        try:
            change()
        finally:
            _once_more(lambda: os.fchmod(file, mode))


def _once_more(change: Callable[[], None]) -> None:
    """Changes what may not stay as it is: where the system refuses it, it is asked a second time."""
    try:
        change()
    except OSError:
        change()


def _beside(place: Place) -> bytes:
    """The file beside a copy, whose name is as that of the copy, so that what folds one folds the other."""
    return b".faxpages-%s.only" % place.name


def _put_beside(place: Place) -> None:
    with contextlib.suppress(FileExistsError):
        file = os.open(_beside(place), os.O_WRONLY | os.O_CREAT | os.O_EXCL | os.O_NOFOLLOW | os.O_CLOEXEC, 0o600,
                       dir_fd=place.folder)
        try:
            os.write(file, _TEXT % place.name)
            os.fsync(file)
        finally:
            os.close(file)
