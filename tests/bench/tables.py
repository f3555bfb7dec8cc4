#!/usr/bin/env python3
"""Tries what bench/run says of its tables, over tables whose numbers are known: tests/bench/run calls it.

    tests/bench/tables.py NAME PEAK

NAME is a function here; it ends with status 0 if all that it claims is so. PEAK is bench/peak.c as it was built."""

from __future__ import annotations

import os
import subprocess
import sys
import tempfile
from typing import List

sys.dont_write_bytecode = True

import tests  # noqa: E402,F401  which says where it is

import kept  # noqa: E402
import measure  # noqa: E402
import summary  # noqa: E402


def table(*jobs: str) -> List[str]:
    """A table of these pages and jobs, each with our instructions and milliseconds, 4 and 4 of libtiff, and 2 or no
    milliseconds of the third."""
    lines = ["head", summary.BEGINS + "more"]
    for line in jobs:
        page, job, instructions, milliseconds, *third = line.split("|")
        lines.append(f"{page:11} {job:9} {instructions} 4 {float(instructions) / 4:.2f} 0 0 {milliseconds} 4 "
                     f"{float(milliseconds) / 4:.2f} " + (f"2 {float(milliseconds) / 2:.2f}" if third else "- -"))
    return [*lines, "", f"{'text':11} rows mh   99 1 99 0 0 99 1 99 1 99"]


def worst_and_mean(_: str) -> None:
    """The worst is named, the mean is geometric, and what follows the table does not count."""
    found = list(summary.summary(table("text|rows mh|1|8|third", "form|rows mh|4|2|third", "form|mmr-mh|16|4")))[2:]
    assert [line.split() for line in found] == [
        ["all", "3", "2.00", "text", "rows", "mh", "1.00", "4.00", "form", "mmr-mh", "1.00",
         "4.00", "text", "rows", "mh", "2.00"],
        ["rows", "2", "2.00", "text", "rows", "mh", "1.00", "1.00", "form", "rows", "mh", "0.50",
         "4.00", "text", "rows", "mh", "2.00"],
        ["conversions", "1", "1.00", "form", "mmr-mh", "1.00", "4.00", "form", "mmr-mh", "4.00", "-", "-", "-", "-"],
    ], found


def counts_once(_: str) -> None:
    """A page and job that stands there twice ends the run."""
    try:
        list(summary.summary(table("text|rows mh|1|8", "form|rows mh|4|2", "text|rows mh|1|8")))
    except SystemExit as error:
        assert "twice" in str(error)
        return
    raise AssertionError("a page and job counted twice")


def settles(_: str) -> None:
    """A least time is believed if it came twice, as nearly as it matters."""
    assert summary.is_settled([1.5, 1.0, 2.0, 1.005])
    assert not summary.is_settled([1.5, 1.0, 2.0, 1.02, 1.02])
    assert not summary.is_settled([1.0])


def each_job_has_a_group(_: str) -> None:
    groups = {"rows mmr": "rows", "check mh": "check", "mr-pbm": "to PBM", "mh-mmr": "conversions",
              "pbm-mh": "from PBM", "one-mmr": "one image"}
    assert {job: summary.group(job) for job in groups} == groups


def refuses(_: str) -> None:
    """Numbers of another version are never kept, and those of a load of 1 or more only where that is allowed."""
    assert kept.refusal("1.5.0", "1.5.0", 0.99, False) == ""
    assert "load is 1.00" in kept.refusal("1.5.0", "1.5.0", 1.0, False)
    assert kept.refusal("1.5.0", "1.5.0", 14.0, True) == ""
    assert "version is 1.4.0" in kept.refusal("1.4.0", "1.5.0", 0.0, True)
    assert kept.head("1.5.0", "2026-11-28", 0.25) == "faxpages 1.5.0, measured on 2026-11-28 at a load of 0.25"
    assert kept.head("1.5.0", "2026-11-28", 1.0).endswith(" at a load of 1.00 (other programs ran)")


def new_files(_: str) -> None:
    """What a run makes is a new file, by itself or by what it prints, and is gone after it."""
    with tempfile.TemporaryDirectory() as room:
        out = os.path.join(room, f"{measure.OUT}1")
        makes = ["sh", "-c", 'test ! -e "$1" && echo made >"$1"', "-", out]
        prints = ["sh", "-c", 'echo more && test "$(wc -c <"$1")" = 5', "-", out, ">", out]
        measure.least([makes, prints, makes], 2)
        assert os.listdir(room) == []


def peaks(peak: str) -> None:
    """What a run holds counts, and what the program holds that asks does not."""
    held = b"x" * 100_000_000
    assert 50 < measure.peak(peak, [sys.executable, "-c", "print(len(b'x' * 50_000_000))"]) < 90
    assert measure.peak(peak, ["true"]) < 10, len(held)
    failed = subprocess.run([peak, "false"], capture_output=True, check=True).stdout.split()[0]
    assert failed == b"1", failed


if __name__ == "__main__":
    globals()[sys.argv[1]](sys.argv[2] if len(sys.argv) > 2 else "")
