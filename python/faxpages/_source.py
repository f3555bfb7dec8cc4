"""Where the bytes of a file come from."""

from __future__ import annotations

import collections.abc
import io
import os
from typing import TYPE_CHECKING, Any, Protocol, Union, runtime_checkable

# Names of types are there at run time too, for typing.get_type_hints.
if TYPE_CHECKING:
    from _typeshed import ReadableBuffer as ReadableBuffer

    Path = os.PathLike[str]
else:
    # Python has a name for it from 3.12 on, and the index from 3.9 on.
    ReadableBuffer = getattr(collections.abc, "Buffer", Any)
    Path = os.PathLike


@runtime_checkable
class Readable(Protocol):
    """A file that is open for reading bytes."""

    def read(self) -> bytes:
        """All bytes from where it stands on."""


class ArrayLike(Protocol):
    """An array of numpy, for readers of types that do not know that it lends its bytes."""

    @property
    def __array_interface__(self) -> object:
        """Where its items are."""


# A file: its bytes, or anything that lends bytes, as a mmap or an array; its path; or a file object that is open for
# bytes, which is read from where it stands to its end.
Source = Union[ReadableBuffer, ArrayLike, str, Path, Readable]


def own(data: ReadableBuffer) -> bytes:
    """Bytes that nobody changes, of the type bytes itself: a type that is made of it may lie about its length."""
    return data if type(data) is bytes else memoryview(data).tobytes()


def bytes_of(source: Source) -> bytes:
    """The bytes of a source, which nobody changes."""
    if type(source) is bytes:  # whether it can be read takes longer to ask
        return source
    if isinstance(source, (str, os.PathLike)):
        with io.open(source, "rb") as file:
            return file.read()
    # A mmap lends its bytes, and can be read too, from where it stands.
    if isinstance(source, Readable) and not _lends(source):
        data: Any = source.read()
        if not isinstance(data, bytes):
            raise TypeError("a file object must be open for bytes, as by mode 'rb'")
        return own(data)
    if not _lends(source):
        raise TypeError("a file is its path, its bytes or what lends them, or a file object that is open for bytes, "
                        f"not {type(source).__name__}")
    lender: Any = source
    return own(lender)


def _lends(source: Any) -> bool:
    """Whether an object lends its bytes."""
    try:
        memoryview(source).release()
    except TypeError:
        return False
    return True
