"""What the filter and the backend for CUPS share: their job, the lines that CUPS reads, and the bounds on what
strangers send. Only these two import this."""

from __future__ import annotations

import contextlib
import fcntl
import os
import re
import resource
import signal
import stat
import sys
import termios
import time
from typing import BinaryIO, Callable, Dict, NamedTuple, NoReturn, Optional, Sequence

# The most bytes of a file that is printed, and of memory that its reader takes.
MOST_BYTES, MOST_MEMORY = 1 << 28, 2 << 30
# The most letters of a line that CUPS reads, the most seconds that it may be late, and the status by which a process says
# that a file is another picture.
_MOST_LETTERS, _MOST_LATE, _OTHER = 400, 60.0, 2
# A name, and its value if it has one: pieces in quotes or in braces, of which none is open, and letters, each of which
# may stand after a backslash.
_OPTION = re.compile(
    r"""\s*(?P<name>[^\s=]+)"""
    r"""(?:=(?P<value>(?:'(?:\\.|[^'\\])*'|"(?:\\.|[^"\\])*"|\{(?:\\.|[^}\\])*\}|\\.|[^\s'"{\\])*))?""", re.DOTALL)
_PIECE = re.compile(r"""'((?:\\.|[^'\\])*)'|"((?:\\.|[^"\\])*)"|(\\.|.)""", re.DOTALL)


class Refused(Exception):
    """Why a job is not done."""


class InDoubt(Refused):
    """Why it is not known whether a job is done."""


class Other(Refused):
    """That a file is another picture than a fax."""


class Job(NamedTuple):
    """What CUPS hands to a filter or a backend: options by their names in small letters, and the file, which is the
    standard input if none is named."""

    number: str
    user: str
    title: str
    copies: str
    options: Dict[str, str]
    path: Optional[str]

    @classmethod
    def of(cls, words: Sequence[str]) -> Job:
        """The job of the words of a call, of which the first is the program's name."""
        if len(words) not in (6, 7):
            raise Refused(f"usage: {os.path.basename(words[0])} job user title copies options [file]")
        return cls(words[1], words[2], words[3], words[4], options_of(words[5]), words[6] if len(words) == 7 else None)

    def read(self) -> bytes:
        """The bytes of its file."""
        if self.path is None:
            return read_all(sys.stdin.buffer)
        with open(self.path, "rb") as file:
            return read_all(file)


def options_of(text: str) -> Dict[str, str]:
    """The options of a text of CUPS: `name=value`, `name` and `noname`, by their names in small letters."""
    found: Dict[str, str] = {}
    for option in _OPTION.finditer(text):
        name, value = option.group("name").lower(), option.group("value")
        if value is None:
            name, value = (name[2:], "false") if name.startswith("no") else (name, "true")
        found[name] = "".join(_piece(*piece.groups()) for piece in _PIECE.finditer(value))
    return found


def _piece(single: Optional[str], double: Optional[str], bare: Optional[str]) -> str:
    """A piece of a value without its quotes and backslashes."""
    text = next(part for part in (single, double, bare) if part is not None)
    return re.sub(r"\\(.)", r"\1", text, flags=re.DOTALL)


def read_all(file: BinaryIO) -> bytes:
    """All bytes of a file, if they are not too many."""
    data = file.read(MOST_BYTES + 1)
    if len(data) > MOST_BYTES:
        raise Refused(f"it has more than {MOST_BYTES} bytes")
    return data


def one_line(text: str, most: int = _MOST_LETTERS) -> str:
    """A text on one line, whatever it holds, so that nothing in it is a line of its own."""
    shown = "".join(letter if letter.isprintable() else " " for letter in text.encode("utf-8", "replace").decode())
    return shown if len(shown) <= most else shown[:most - 3] + "..."


def say(level: str, text: str) -> None:
    """Hands CUPS a line: ERROR, WARNING, INFO or DEBUG."""
    sys.stderr.write(f"{level}: {one_line(text)}\n")
    sys.stderr.flush()


def say_why(text: str) -> None:
    """Hands CUPS the line by which a filter fails, and waits until it has read it: of a filter that ends before, CUPS
    says that it failed, and takes no line for its message any more."""
    say("ERROR", text)
    end = time.monotonic() + _MOST_LATE
    while is_unread(2) and time.monotonic() < end:
        time.sleep(0.01)


def is_unread(number: int) -> bool:
    """Whether what is open under a number is a pipe with something in it."""
    with contextlib.suppress(OSError):
        return stat.S_ISFIFO(os.fstat(number).st_mode) and any(fcntl.ioctl(number, termios.FIONREAD, bytes(4)))
    return False


def within(seconds: int, work: Callable[[], None]) -> None:
    """Does work in a process of its own, which takes no more than these seconds, by the clock and of a processor, and
    no more memory than MOST_MEMORY. Raises Refused, also as the work does."""
    reader, writer = os.pipe()
    child = os.fork()
    if child == 0:
        os.close(reader)
        _do(seconds, work, writer)
    os.close(writer)
    try:
        with open(reader, "rb") as file:
            said = file.read()
        _, status = os.waitpid(child, 0)
    except BaseException:
        os.kill(child, signal.SIGKILL)
        os.waitpid(child, 0)
        raise
    if os.WIFSIGNALED(status):
        number = os.WTERMSIG(status)
        raise Refused(f"it takes longer than {seconds} seconds" if number in (signal.SIGALRM, signal.SIGXCPU)
                      else f"its reader was ended by signal {number}")
    if os.WEXITSTATUS(status) == _OTHER:
        raise Other(said.decode("utf-8", "replace"))
    if os.WEXITSTATUS(status):
        raise Refused(said.decode("utf-8", "replace") or "its reader failed")


def _do(seconds: int, work: Callable[[], None], writer: int) -> NoReturn:
    """Does work in this process, and ends it; what is wrong goes into a pipe."""
    status = 1
    try:
        for number in (signal.SIGTERM, signal.SIGALRM, signal.SIGXCPU):
            signal.signal(number, signal.SIG_DFL)
        resource.setrlimit(resource.RLIMIT_CPU, (seconds, seconds + 1))
        resource.setrlimit(resource.RLIMIT_AS, (MOST_MEMORY, MOST_MEMORY))
        signal.alarm(seconds)
        work()
        status = 0
    except Other as other:
        status = _OTHER
        os.write(writer, str(other).encode())
    except MemoryError:
        os.write(writer, b"it takes too much memory")
    except OSError as error:
        os.write(writer, (error.strerror or str(error)).encode("utf-8", "replace")[:1000])
    except Exception as error:  # pylint: disable=broad-exception-caught
        os.write(writer, (str(error) or type(error).__name__).encode("utf-8", "replace")[:1000])
    finally:
        os._exit(status)


def seconds_of(usual: int) -> int:
    """The seconds that a job may take: FAXPAGES_SECONDS of cups-files.conf, or as usual. No option of a job tells
    it."""
    text = os.environ.get("FAXPAGES_SECONDS", "")
    return max(1, int(text)) if re.fullmatch(r"[0-9]{1,6}", text) else usual
