"""A folder that folds case, for the copies of an episode: one of FUSE (folds.c), with attributes, modes, owners and hard
links."""

import atexit
import functools
import os
import shutil
import subprocess
import sys
import tempfile
from typing import Dict

HERE = os.path.dirname(os.path.abspath(__file__))

from tests.waiting import PATIENCE, wait_for  # noqa: E402

TOOLS = ("cc", "unshare", "umount")
OWN = "OWN_MOUNTS"
_mounted: "Dict[str, subprocess.Popen[bytes]]" = {}


def in_own_mounts() -> None:
    """Goes on in a namespace of mounts of its own, where that can be had, so that none is left behind."""
    able = os.geteuid() == 0 and all(map(shutil.which, TOOLS)) and OWN not in os.environ
    if able and subprocess.run(["unshare", "-m", "true"], capture_output=True, check=False).returncode == 0:
        os.environ[OWN] = "yes"
        os.execvp("unshare", ["unshare", "-m", "--propagation", "private", sys.executable, *sys.argv])


@functools.lru_cache(maxsize=None)
def why_not() -> str:
    """Why no folder that folds case can be mounted, which is said once; or nothing."""
    missing = [name for name in TOOLS if not shutil.which(name)]
    why = f"{missing[0]} is not installed" if missing else ""
    if not why and (OWN not in os.environ or not os.path.exists("/dev/fuse")):
        why = "only root can mount a folder that folds case, where there is FUSE"
    if not why and not _program():
        why = "FUSE (libfuse3-dev) is not installed"
    if why:
        print(f"SKIPPED: {why}, so: no copies are put into one", flush=True)
    return why


@functools.lru_cache(maxsize=None)
def _program() -> str:
    """The program that folds case; nothing where it cannot be built."""
    folder = tempfile.mkdtemp()
    atexit.register(shutil.rmtree, folder)
    words = ["cc", "-O1", "-D_FILE_OFFSET_BITS=64", "-o", f"{folder}/folds", f"{HERE}/folds.c", "-lfuse3"]
    return "" if subprocess.run(words, capture_output=True, check=False).returncode else f"{folder}/folds"


def mount(folder: str) -> None:
    """Has an empty folder fold case. What stands there stands in one beside it."""
    os.mkdir(f"{folder}-folded")
    _mounted[folder] = process = subprocess.Popen([_program(), f"{folder}-folded", folder])
    wait_for(lambda: os.path.ismount(folder) or process.poll() is not None)
    if not os.path.ismount(folder):
        raise OSError(f"no folder folds case: folds ended with status {process.returncode}")


def unmount(folder: str) -> None:
    """Unmounts it, and waits for its end."""
    subprocess.run(["umount", folder], check=True)
    _mounted.pop(folder).wait(PATIENCE)
