"""Runs a program with files in memory as its streams, which costs less than pipes."""

from __future__ import annotations

import os
import signal
from types import FrameType

LIMIT = 900


class Streams:
    """The three streams of a process: files without names, used for one run after another."""

    def __init__(self) -> None:
        self.files = [os.memfd_create(name) for name in ("input", "output", "error")]
        signal.signal(signal.SIGALRM, stop)

    def fill(self, content: bytes) -> None:
        """Makes these bytes all that is read."""
        file = self.files[0]
        os.ftruncate(file, len(content))
        os.pwrite(file, content, 0)
        os.lseek(file, 0, os.SEEK_SET)

    def taken(self, number: int) -> bytes:
        """The bytes that were written to a stream, which is empty then."""
        file = self.files[number]
        size = os.fstat(file).st_size
        if size == 0:
            return b""
        content = os.pread(file, size, 0)
        os.ftruncate(file, 0)
        os.lseek(file, 0, os.SEEK_SET)
        return content


class Overtime(Exception):
    """A run that took too long."""


def stop(_signal: int, _frame: FrameType | None) -> None:
    raise Overtime(f"no end in {LIMIT} seconds")


def wait(process: int) -> int:
    """The status that a process ends with; it is killed where that takes too long."""
    signal.alarm(LIMIT)
    try:
        status = os.waitpid(process, 0)[1]
        return -os.WTERMSIG(status) if os.WIFSIGNALED(status) else os.WEXITSTATUS(status)
    except Overtime:
        os.kill(process, signal.SIGKILL)
        os.waitpid(process, 0)
        raise
    finally:
        signal.alarm(0)


STREAMS: list[Streams] = []


def run(program: str, words: list[str], data: bytes) -> tuple[str, str, int]:
    """What the program writes: its output and its error line, as texts, and its status."""
    output, error, status = run_bytes(program, words, data)
    return output.decode(), error.decode(), status


def run_bytes(program: str, words: list[str], data: bytes) -> tuple[bytes, bytes, int]:
    """The same as bytes."""
    if not STREAMS:
        STREAMS.append(Streams())
    streams = STREAMS[0]
    streams.fill(data)
    places = [(os.POSIX_SPAWN_DUP2, file, number) for number, file in enumerate(streams.files)]
    process = os.posix_spawn(program, [program, *words], dict[str, str](), file_actions=places)
    status = wait(process)
    return streams.taken(1), streams.taken(2), status
