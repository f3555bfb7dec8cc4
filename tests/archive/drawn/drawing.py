"""Draws episodes until so many steps are done."""

from __future__ import annotations

import os
import random
import tempfile
import traceback
from typing import Dict, Optional, Tuple

from tests.archive.drawn import cluster, contents, folding
from tests.archive.drawn.comparing import Difference
from tests.archive.drawn.operating import DASK, FOLDED, GOING, PLAIN, SECOND, STRANGERS, WORKERS, Episode

import faxpages
import faxpages.archive._main  # noqa: F401  so that each run has it already

STEPS = 25
# The most differences that are told, and of each the most lines of what was done before it.
MOST = 20
# After how many steps it is told how many were right, for who ends a long run before its end.
TELL = 500
# How many of a hundred episodes are of each kind; the others are plain.
SHARES = {WORKERS: 10, DASK: 3, SECOND: 3, FOLDED: 5, GOING: 10, STRANGERS: 0}


def draw(program: str, steps: int, seed: str, only: str, shares: Dict[str, int],
         stop: bool = False) -> Tuple[int, int]:
    """How many steps were right, and how many episodes were not."""
    print(f"operator: seed {seed}", flush=True)
    if shares[DASK]:
        cluster.python()
    if shares[FOLDED]:
        folding.why_not()
    faxes = contents.drawn(faxpages, 1)
    teller = contents.Teller(faxpages, program)
    done, failed, differ = 0, 0, []
    number = int(only or 0)
    while done < steps and failed < MOST and not (stop and failed):
        count, why = _episode(teller, faxes, f"{seed}/{number}", shares, bool(only))
        if (done + count) // TELL > done // TELL:
            print(f"operator: {done + count} steps so far, {failed} differed", flush=True)
        done += count
        failed += why is not None
        if why is not None:
            differ.append(f"{seed}/{number}")
            said = f"FAILED: {differ[-1]}, step {count}: {why}"
            print(said.encode(errors="backslashreplace").decode(), flush=True)
        number += 1
        if only:
            break
    if differ:
        print(f"operator: these differed: {', '.join(differ)}", flush=True)
    return done, failed


def _kind(number: int, shares: Dict[str, int]) -> str:
    """The kind of an episode by a number below a hundred. Without Dask, what is to be by it is by workers, and what no
    folder folds is plain."""
    for kind, share in shares.items():
        if number < share:
            instead = {DASK: cluster.python() is None and WORKERS, FOLDED: folding.why_not() and PLAIN}
            return instead.get(kind) or kind
        number -= share
    return PLAIN


def _episode(teller: contents.Teller, faxes: list[contents.Content], name: str, shares: Dict[str, int],
             tells: bool) -> Tuple[int, Optional[str]]:
    """How many steps of an episode were right, and what was not."""
    rng = random.Random(name)
    with tempfile.TemporaryDirectory(dir=_fast()) as folder:
        os.chmod(folder, 0o755)
        kind = _kind(rng.randrange(100), shares)
        episode = Episode(os.path.join(os.path.realpath(folder), "w"), rng, faxes, teller, kind)
        try:
            return _steps(episode, tells)
        finally:
            episode.end()


def _steps(episode: Episode, tells: bool) -> Tuple[int, Optional[str]]:
    """Does the steps of an episode: how many were right, and what was not."""
    for step in range(STEPS):
        try:
            episode.step()
        except Difference as difference:
            return step, _told(episode, str(difference), tells)
        except Exception:
            return step, _told(episode, traceback.format_exc(), tells)
    if tells:
        print("\n".join(episode.log).encode(errors="backslashreplace").decode())
    return STEPS, None


def _told(episode: Episode, why: str, tells: bool) -> str:
    lines = episode.log if tells else episode.log[-MOST:]
    return "\n".join([why, *lines])


def _fast() -> Optional[str]:
    """A folder in memory, if there is one that keeps attributes."""
    try:
        with tempfile.NamedTemporaryFile(dir="/dev/shm") as file:
            os.setxattr(file.name, "user.faxpages.test", b"1")
        return "/dev/shm"
    except OSError:
        return None
