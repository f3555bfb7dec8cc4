#!/usr/bin/env python3
"""What is handed to the Python module: files that take a part of what is written, types that are made of bytes and of
numbers, what is of the wrong type and what is said of it; and the types and the version that the module tells.

    handed.py VERSION

Those of numpy are tried where it is installed. FAXPAGES_LIBRARY names the library. Ends with
'handed: N passed, N failed'."""

from __future__ import annotations

import operator
import importlib.util
import inspect
import io
import os
import re
import subprocess
import sys
import tempfile
import threading
import typing
from typing import Any, BinaryIO, Callable
from functools import partial

from tests.library.counted import Claims
from tests import TOP
from tests.library.counted import Claims

import faxpages

HAS_NUMPY = importlib.util.find_spec("numpy") is not None
# A page that fills the room of a pipe many times.
LARGE = faxpages.Raster(8000, 1000, os.urandom(1000) * 1000)
# A stranger's module, which a program must not run.
STRANGER = 'open("ran", "w").close()\nraise SystemExit("a stranger")\n'


class Slow(io.RawIOBase):
    """An unbuffered file that takes a few bytes at a time, and then none."""

    def __init__(self, most: int, answers_none: int | None = None) -> None:
        super().__init__()
        self.most, self.answers_none, self.got = most, answers_none, b""

    def write(self, data: Any) -> int | None:
        if self.answers_none is not None and len(self.got) >= self.answers_none:
            return None
        taken = bytes(data[:self.most])
        self.got += taken
        return len(taken)


class Silent:
    """A file whose write says nothing, or what is no number of bytes."""

    def __init__(self, answer: bool | str | None) -> None:
        self.answer, self.got = answer, b""

    def write(self, data: bytes) -> bool | str | None:
        self.got += data
        return self.answer


def through_pipe(data_of: Callable[[BinaryIO], object]) -> bytes:
    """What is read of a pipe that is not buffered."""
    reader, writer = os.pipe()
    got: list[bytes] = []
    with os.fdopen(reader, "rb") as source:
        thread = threading.Thread(target=lambda: got.append(source.read()))
        thread.start()
        with os.fdopen(writer, "wb", buffering=0) as out:
            data_of(out)
        thread.join()
    return got[0]


def written(claims: Claims) -> None:
    """All bytes are written, or it is said."""
    wanted = faxpages.encode([LARGE])
    claims.see("through a pipe", through_pipe(lambda out: faxpages.write([LARGE], out)) == wanted)
    for most in (1000, len(wanted) - 1, len(wanted)):
        file = Slow(most)
        faxpages.write([LARGE], file)
        claims.see(f"{most} bytes at a time", file.got == wanted)
    for answer in (None, True, "all"):
        silent = Silent(answer)
        faxpages.write([LARGE], silent)
        claims.see(f"a file that answers {answer}", silent.got == wanted)
    for file in (Slow(0), Slow(1000, 3000), Slow(1000, 0)):
        try:
            faxpages.write([LARGE], file)
            claims.see("a file that takes no more", False)
        except BlockingIOError as error:
            claims.see("a file that takes no more", error.characters_written == len(file.got) < len(wanted))
    reader, writer = os.pipe()
    os.set_blocking(writer, False)
    with os.fdopen(writer, "wb", buffering=0) as out:
        claims.raises("a pipe that nobody reads", BlockingIOError, lambda: faxpages.write([LARGE], out))
    os.close(reader)


class Liar(bytes):
    """Bytes that say another length."""

    def __len__(self) -> int:
        return 1 << 40

    def __bytes__(self) -> bytes:
        return self


class Huge(int):
    """A number that says that it is in any range."""

    def __le__(self, other: object) -> bool:
        return True

    def __ge__(self, other: object) -> bool:
        return True


def of_other_types(claims: Claims) -> None:
    """Types that are made of bytes and numbers are taken as these."""
    with open(f"{TOP}/samples/three-pages.tif", "rb") as file:
        data = file.read()
    fax, lying = faxpages.open(data), Liar(data)
    claims.see("bytes of a lying length", faxpages.open(lying) == fax and len(fax) == 3)
    claims.see("a file of them", faxpages.open(Lender(lying)) == fax)
    claims.see("their report", faxpages.check(lying) == faxpages.check(data))
    strip = faxpages.encode_strip(fax[1])
    claims.see("a strip of them", faxpages.strip(Liar(strip), 8).packed == fax[1].packed())
    reader = faxpages.StripReader(8)
    reader.feed(Liar(strip))
    claims.see("pieces of them", len(list(reader)) == 3 and faxpages.check_strip(Liar(strip), 8).rows == 3)
    claims.see("a raster of them", type(faxpages.Raster(8, 3, Liar(b"\1\2\3")).packed) is bytes)
    claims.raises("a huge number", ValueError, lambda: faxpages.Raster(8, Huge(1 << 40), b""))
    claims.raises("a huge page", ValueError, lambda: fax.page(Huge(1 << 40)))
    raster = faxpages.Raster(Huge(8), True, b"\1", unit=Huge(2))
    claims.see("numbers of a raster", {type(it) for it in (raster.width, raster.rows, raster.unit)} == {int})


class Lender:
    """A file that reads this."""

    def __init__(self, data: Liar) -> None:
        self.data = data

    def read(self) -> Liar:
        return self.data


def of_numpy(claims: Claims) -> None:
    """Numbers and arrays of numpy."""
    import numpy  # pylint: disable=import-outside-toplevel

    numbers: list[Any] = [numpy.int64(8), numpy.uint16(2), numpy.int8(2)]
    raster = faxpages.Raster(numbers[0], numbers[1], b"\1\2", unit=numbers[2])
    claims.see("a strip of a raster of numbers of numpy",
               faxpages.strip(faxpages.encode_strip(raster), numpy.int32(8), numpy.int64(2)) == raster)
    page = faxpages.open(f"{TOP}/samples/three-pages.tif")[1]
    array = numpy.asarray(page)
    claims.see("a page as an array", array.shape == (3, 1) and array.tobytes() == page.packed())
    own = numpy.array(page)
    own[0] = 0
    claims.see("an array of its own", own[0] == 0 and numpy.asarray(page, dtype=numpy.int32).dtype == numpy.int32)
    damaged = faxpages.open(f"{TOP}/samples/three-pages.tif")[2]
    claims.raises("a damaged page as an array", faxpages.DataEnds, lambda: numpy.asarray(damaged))


def bools(claims: Claims) -> None:
    """What is not 0 is a black pel, with numpy and without."""
    items = bytes(range(256)) + bytes(8)
    view = memoryview(items).cast("B").cast("?", (2, 132))
    wanted = [[bool(byte) for byte in items[at:at + 132]] for at in (0, 132)]
    found = faxpages.open(faxpages.encode([view]))[0]
    claims.see("bools of a memoryview", [[bool(pel) for pel in bits_of(row)] for row in found] == wanted)


def bits_of(row: faxpages.Row) -> list[int]:
    """The pels of a row."""
    return [row.packed[at // 8] >> 7 - at % 8 & 1 for at in range(row.width)]


def words(claims: Claims, name: str, kind: type[Exception], text: str, work: Callable[[], object]) -> None:
    """An exception of a kind that says this."""
    try:
        work()
        claims.see(f"{name}: nothing is raised", False)
    except Exception as error:  # pylint: disable=broad-except
        claims.see(f"{name}: {error!r}", isinstance(error, kind) and re.search(text, str(error)) is not None)


def wrong(claims: Claims) -> None:
    """What is wrong is told in words for who has called."""
    fax = faxpages.open(f"{TOP}/samples/three-pages.tif")
    cursors: list[Any] = ["1:0:0", 0, b"", (1, 2)]
    for cursor in cursors:
        words(claims, f"rows from {cursor!r}", TypeError, "^a cursor is a Cursor", partial(fax.rows, cursor))
        words(claims, f"a batch from {cursor!r}", TypeError, "^a cursor is a Cursor", partial(fax.read_rows, cursor, 1))
    files: list[Any] = [1, None, [1], object(), io.StringIO()]
    for file in files:
        words(claims, f"written to {file!r:.10}", TypeError, "^a file is a path, or a file object that is open for",
              partial(faxpages.write, [fax[0]], file))
    calls: list[Callable[[Any], object]] = [faxpages.open, faxpages.check, lambda it: faxpages.convert(it, "mr")]
    for source in (1, None, [1], object()):
        for call in calls:
            words(claims, f"opened {source!r:.10}", TypeError, "^a file is its path, its bytes", partial(call, source))
    for number in (3, 4, 5, 1000):
        words(claims, f"fax[{number}]", IndexError, f"^the file has no page {number}$", partial(operator.getitem, fax, number))
    choices = "^no coding: 'MMR'; there are mh, mr, mmr$"
    works: list[Callable[[], object]] = [
        lambda: faxpages.encode([fax[0]], "MMR"), lambda: faxpages.encode_strip(fax[0], "MMR"),
        lambda: faxpages.strip(b"", coding="MMR"), lambda: faxpages.check_strip(b"", coding="MMR"),
        lambda: faxpages.StripReader(coding="MMR")]
    for work in works:
        words(claims, "no coding", ValueError, choices, work)
    words(claims, "no target", ValueError, "^no target: 'tiff'; there are pbm, mh, mr, mmr$",
          lambda: fax.convert("tiff"))
    text = repr(LARGE)
    claims.see(f"a short text of a raster: {text:.200}", len(text) < 300 and "width=8000, rows=1000" in text)


def hints(claims: Claims) -> None:
    """The types of all that is public can be asked for at run time."""
    for name in faxpages.__all__:
        thing = getattr(faxpages, name)
        members = [thing] if callable(thing) and not typing.get_origin(thing) else []
        if inspect.isclass(thing):
            members += [value.fget if isinstance(value, property) else value for key, value in vars(thing).items()
                        if not key.startswith("_") and (inspect.isfunction(value) or isinstance(value, property))]
        for member in members:
            try:
                typing.get_type_hints(member)
                claims.see(f"types of {name}", True)
            except Exception as error:  # pylint: disable=broad-except
                claims.see(f"types of {name}.{member.__name__}: {error!r}", False)
    claims.see("a file's types", "source" in typing.get_type_hints(faxpages.open))


def versions(claims: Claims, version: str) -> None:
    """The version of the module, and a stranger's modules that do not run."""
    claims.see("__version__", faxpages.__version__ == version)
    with tempfile.TemporaryDirectory() as folder:
        for name in ("fractions", "ctypes", "struct"):
            with open(f"{folder}/{name}.py", "w", encoding="utf-8") as file:
                file.write(STRANGER)
        program = (f"import sys, runpy; sys.path.insert(0, {TOP + '/python'!r}); sys.argv[1:] = ['--version']; "
                   "runpy.run_module('faxpages', run_name='__main__', alter_sys=True)")
        ran = subprocess.run([sys.executable, "-I", "-c", program], cwd=folder, capture_output=True, check=False)
        claims.see(f"python3 -I: {ran}", ran.stdout.decode() == f"faxpages {faxpages.version()}\n"
                   and not os.path.exists(f"{folder}/ran"))
        ran = subprocess.run([sys.executable, "-m", "faxpages"], cwd=folder, capture_output=True, check=False,
                             env={**os.environ, "PYTHONPATH": f"{TOP}/python", "PYTHONSAFEPATH": "1"})
    claims.see("the usage says -I", b"usage: python3 -I -m faxpages --version" in ran.stderr
               or sys.version_info < (3, 11))


def main() -> int:
    claims = Claims()
    for part in (written, of_other_types, bools, wrong, hints):
        part(claims)
    versions(claims, sys.argv[1])
    # Once numpy is imported, the module takes it for arrays.
    if HAS_NUMPY:
        of_numpy(claims)
        bools(claims)
    return claims.ends("handed")


if __name__ == "__main__":
    sys.exit(main())
