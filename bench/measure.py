"""Calls programs and measures them, for bench/run and bench/library: instructions and mispredicted branches by
valgrind's cachegrind, seconds of the processor and memory by the system."""

from __future__ import annotations

import os
import re
import subprocess
import sys
import tempfile
from typing import List, NamedTuple, Sequence, Tuple

HERE = os.path.dirname(os.path.abspath(__file__))
CODINGS = ["mh", "mr", "mmr"]
# Files of so many pages are read, so that what a program does once is left out by their difference. From images of one
# page to those of two faxpages takes a large block of memory, into which it copies what was read so far.
COUNTS = (2, 3)
# What the name of a file begins with that a run makes: it is new in each run.
OUT = "out-"


class Counts(NamedTuple):
    """What a run takes: instructions, and branches that the processor foretells wrongly, by cachegrind's model."""

    instructions: float
    mispredicted: float


def call(words: Sequence[str], output: str = os.devnull, statuses: Sequence[int] = (0,)) -> None:
    """Runs a command that has to end with one of the statuses, with its output to a file or nowhere."""
    with open(output, "wb") as out:
        status = subprocess.run(words, stdout=out, stderr=subprocess.DEVNULL, check=False).returncode
    if status not in statuses:
        sys.exit(f"bench: status {status} of {' '.join(words)}")


def split(words: Sequence[str]) -> Tuple[Sequence[str], str]:
    """A command, and where its output goes: into a file after `>`, or else nowhere."""
    return (words[:-2], words[-1]) if words[-2:-1] == [">"] else (words, os.devnull)


def remove_made(words: Sequence[str]) -> None:
    """Takes away what a run has made."""
    for word in words:
        if os.path.basename(word).startswith(OUT) and os.path.exists(word):
            os.remove(word)


def counts(words: Sequence[str]) -> Counts:
    """What a run takes, by valgrind; its output goes nowhere."""
    command, _ = split(words)
    with tempfile.NamedTemporaryFile("r") as log:
        call(["valgrind", "--tool=cachegrind", "--cache-sim=no", "--branch-sim=yes", "--cachegrind-out-file=/dev/null",
              f"--log-file={log.name}", *command], statuses=(0, 1))
        said = log.read()
    remove_made(words)
    found = [re.search(pattern, said) for pattern in (r"I\s+refs:\s+([\d,]+)", r"Mispredicts:\s+([\d,]+)")]
    return Counts(*(float(it.group(1).replace(",", "")) for it in found if it))


def a_page(few: Counts, many: Counts) -> Counts:
    """What a page takes, by files of so many pages (COUNTS)."""
    pages = COUNTS[1] - COUNTS[0]
    return Counts(*((more - less) / pages for less, more in zip(few, many)))


def seconds(words: Sequence[str]) -> float:
    """The seconds of the processor that a run takes; where it makes a file, that is a new one."""
    command, output = split(words)
    with open(output, "wb") as out:
        child = subprocess.Popen(command, stdout=out, stderr=subprocess.DEVNULL)
        _, status, usage = os.wait4(child.pid, 0)
    child.returncode = os.waitstatus_to_exitcode(status)
    remove_made(words)
    if child.returncode:
        sys.exit(f"bench: status {child.returncode} of {' '.join(words)}")
    spent: float = usage.ru_utime + usage.ru_stime
    return spent


def least(commands: Sequence[Sequence[str]], times: int) -> List[float]:
    """The least seconds of each command, of so many runs in turn."""
    seen = [[seconds(words) for words in commands] for _ in range(times)]
    return [min(turn[place] for turn in seen) for place in range(len(commands))]


def peak(launcher: str, words: Sequence[str]) -> float:
    """The most memory that is resident in a run, in MB, by peak.c as it was built; the run's output goes nowhere."""
    command, _ = split(words)
    said = subprocess.run([launcher, *command], stdout=subprocess.PIPE, check=True).stdout.split()
    remove_made(words)
    if said[0] != b"0":
        sys.exit(f"bench: status {said[0].decode()} of {' '.join(words)}")
    return int(said[1]) * 1024 / 1e6


def build(room: str, name: str, *libraries: str) -> str:
    """Compiles NAME.c of this folder; empty where that cannot be."""
    program = os.path.join(room, name)
    words = ["gcc", "-O2", "-o", program, os.path.join(HERE, f"{name}.c"), *libraries]
    made = subprocess.run(words, stderr=subprocess.DEVNULL, check=False).returncode == 0
    return program if made else ""


def draw(seed: int, room: str) -> None:
    """Draws the pages of a seed, NAME.pbm, by the first Python that has PIL."""
    for python in (sys.executable, "/usr/bin/python3"):
        words = [python, "-B", os.path.join(HERE, "pages.py"), str(seed), room]
        if os.path.exists(python) and subprocess.run(words, stderr=subprocess.DEVNULL, check=False).returncode == 0:
            return
    sys.exit("bench: first run: apt-get install python3-pil fonts-dejavu-core fonts-ipafont-mincho fonts-femkeklaver "
             "fonts-breip")
