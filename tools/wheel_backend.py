"""Builds a wheel of these sources for pip, where none that was made fits the machine:

    pip install faxpages-VERSION.tar.gz

The library inside is built by cargo from plain/, which is the text that is proved; the compiler is stock rustc and not
proved. It needs cargo with Rust 1.73 or later, and the crates that tools/plain/README.md names, from where cargo is
told to take them; for pip it needs nothing, and no network. pip calls these functions in a process of their own, in the
folder of the sources, which stays as it is."""

from __future__ import annotations

import calendar
import glob
import os
import re
import shutil
import subprocess
import sys
import sysconfig
import tempfile
import time
from typing import Any

TOP = os.path.dirname(os.path.dirname(os.path.abspath(__file__)))
# What cargo calls the library on Linux, macOS and Windows.
NAMES = ("libfaxpages.so", "libfaxpages.dylib", "faxpages.dll")


def read(name: str) -> str:
    with open(os.path.join(TOP, name), encoding="utf-8") as file:
        return file.read()


def date_of_version() -> str:
    """The date of the version, in seconds: times in the wheel."""
    found = re.search(rf"(?m)^## {re.escape(read('VERSION').strip())}, (\d{{4}}-\d\d-\d\d)$", read("CHANGELOG.md"))
    if found is None:
        raise SystemExit("CHANGELOG.md has no date of the version")
    return str(calendar.timegm(time.strptime(found[1], "%Y-%m-%d")))


def run(why: str, *words: str, folder: str = TOP, **more: str) -> str:
    """Runs a program, whose output is answered; one that fails ends the build, with what it says and why it is run."""
    ran = subprocess.run(words, cwd=folder, env={**os.environ, **more}, stdout=subprocess.PIPE, check=False)
    if ran.returncode:
        raise SystemExit(f"faxpages: {why} failed: {' '.join(words)}")
    return ran.stdout.decode()


def built_library(room: str) -> str:
    """The shared library, built in a folder of its own."""
    if shutil.which("cargo") is None:
        raise SystemExit("faxpages: no wheel that was made fits this machine, so the library is built, and that needs "
                         "cargo with Rust 1.73 or later: https://rustup.rs, or the package cargo of the system")
    shutil.copytree(os.path.join(TOP, "plain"), f"{room}/plain", ignore=shutil.ignore_patterns("target"))
    words = ["cargo", "rustc", "--release", "--quiet", "-p", "faxpages-library"]
    if sys.platform.startswith("linux"):
        words += ["--", "-C", "link-arg=-Wl,-soname,libfaxpages.so.1"]
    run("building the library", *words, folder=f"{room}/plain", CARGO_TARGET_DIR=f"{room}/target",
        CARGO_PROFILE_RELEASE_STRIP="symbols",
        RUSTFLAGS=f"{os.environ.get('RUSTFLAGS', '')} --remap-path-prefix={room}/plain=plain".strip())
    # Told a target, as by CARGO_BUILD_TARGET, cargo puts it into a folder more.
    made = [path for name in NAMES for folder in ("release", "*/release")
            for path in glob.glob(f"{room}/target/{folder}/{name}")]
    if not made:
        raise SystemExit("faxpages: cargo built no shared library")
    return made[0]


def tag() -> str:
    """What pip reads of the machines that the wheel is for: this one."""
    return "py3-none-" + re.sub(r"[-.]", "_", sysconfig.get_platform())


def build_wheel(wheel_directory: str, config_settings: Any = None, metadata_directory: Any = None) -> str:
    """Builds the wheel, and answers its name."""
    with tempfile.TemporaryDirectory() as room:
        made = run("making the wheel", sys.executable, "-I", "-B", os.path.join(TOP, "tools", "build-wheel"),
                   "--tag", tag(), built_library(room), os.path.abspath(wheel_directory),
                   SOURCE_DATE_EPOCH=os.environ.get("SOURCE_DATE_EPOCH", date_of_version()))
    return os.path.basename(made.strip())


def prepare_metadata_for_build_wheel(metadata_directory: str, config_settings: Any = None) -> str:
    """Writes what is told of the package, without building it, and answers the folder's name."""
    name = f"faxpages-{read('VERSION').strip()}.dist-info"
    folder = os.path.join(metadata_directory, name)
    os.makedirs(folder)
    told = run("reading what the package is", sys.executable, "-I", "-B", os.path.join(TOP, "tools", "build-wheel"),
               "--metadata")
    with open(os.path.join(folder, "METADATA"), "w", encoding="utf-8") as file:
        file.write(told)
    return name


class UnsupportedOperation(NotImplementedError):
    """What this does not do."""


def build_sdist(sdist_directory: str, config_settings: Any = None) -> str:
    """The archive of the sources is made by ./package, which knows what is in it."""
    raise UnsupportedOperation("./package makes the archive of the sources")
