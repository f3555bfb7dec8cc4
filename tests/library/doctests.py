#!/usr/bin/env python3
"""Runs the examples of the Python module, from the folder of the repository, and sees that each public name has one.

    doctests.py

FAXPAGES_LIBRARY names the library. Examples that make images or arrays are left out where Pillow or numpy is not
installed, which is said. Ends with 'doctests: N passed, N failed'."""

from __future__ import annotations

import doctest
import importlib
import importlib.util
import inspect
import os
import sys
from typing import Callable, Iterator
from types import ModuleType

from tests.library.counted import Claims
from tests import TOP
from tests.library.counted import Claims

import faxpages

# What an example needs, by the ending of its name.
NEEDS = {".image": "PIL", ".array": "numpy", ".mask": "numpy", ".register": "PIL"}
# Modules that import what need not be installed.
IMPORTS = {"_tiff": "PIL", "_pdf": "pikepdf"}
# Names of types that are written out, and so have no docstring.
TYPES = {"Source", "Writable"}


def modules() -> Iterator[ModuleType]:
    """The modules of the package, but for those of the command for archives, and for those that import what is not
    installed."""
    folder = os.path.join(TOP, "python", "faxpages")
    left_out = ("__", *(name for name in IMPORTS if not importlib.util.find_spec(IMPORTS[name])))
    for name in sorted(os.listdir(folder)):
        if name.endswith(".py") and not name.startswith(left_out):
            yield importlib.import_module(f"faxpages.{name[:-3]}")
    yield faxpages


def is_there(name: str) -> bool:
    """Whether what an example needs is installed."""
    needed = next((needed for ending, needed in NEEDS.items() if name.endswith(ending)), None)
    return needed is None or importlib.util.find_spec(needed) is not None


def run_all(claims: Claims) -> dict[str, int]:
    """Runs each docstring's examples, and answers how many there are by the name of what they are of."""
    runner, finder = doctest.DocTestRunner(optionflags=doctest.ELLIPSIS), doctest.DocTestFinder(exclude_empty=True)
    counts = {}
    for module in modules():
        for test in finder.find(module, extraglobs={"faxpages": faxpages}):
            counts[test.name[len(module.__name__) + 1:]] = len(test.examples)
            if not test.examples:
                continue
            if not is_there(test.name):
                print(f"SKIPPED: the examples of {test.name}, which need what is not installed")
                continue
            claims.see(f"the examples of {test.name}", runner.run(test).failed == 0)
    return counts


def members(name: str,
            thing: Callable[..., object] | type[faxpages.Cursor | faxpages.Fax | faxpages._fax.Page | faxpages.Raster | faxpages._report.Note | faxpages.Report | faxpages.Row | faxpages._salvaged.Salvaged | faxpages._salvaged.Stretch | faxpages.StripReader | faxpages._strips.StripReport | faxpages.faults.BadCode | faxpages.faults.BadField | faxpages.faults.ByteOrder | faxpages.faults.ConversionError | faxpages.faults.DataEnds | faxpages.faults.DirectoryLoop | faxpages.faults.DirectoryOutside | faxpages.faults.EndMarker | faxpages.faults.Extension | faxpages.faults.Fault | faxpages.faults.FaxError | faxpages.faults.FileFault | faxpages.faults.Magic | faxpages.faults.MissingEol | faxpages.faults.MissingField | faxpages.faults.NoDirectory | faxpages.faults.NotACursorError | faxpages.faults.OutOfLimits | faxpages.faults.OutOfRow | faxpages.faults.OutputTooLarge | faxpages.faults.OutsideError | faxpages.faults.PbmFault | faxpages.faults.RunTooLong | faxpages.faults.ShortHeader | faxpages.faults.StripFault | faxpages.faults.StripOutside | faxpages.faults.TooManyRows | faxpages.faults.UnknownInput | faxpages.faults.Unsupported]) -> Iterator[str]:
    """A public name, and of a class the public ones that stand in it."""
    yield name
    if inspect.isclass(thing) and not issubclass(thing, BaseException):
        for member, value in vars(thing).items():
            if not member.startswith("_") and (inspect.isfunction(value) or isinstance(value, (property, classmethod))):
                yield f"{name}.{member}"


def main() -> int:
    os.chdir(TOP)
    claims = Claims()
    counts = run_all(claims)
    for name in sorted(set(faxpages.__all__) - TYPES):
        for member in members(name, getattr(faxpages, name)):
            claims.see(f"{member} has an example", counts.get(member, 0) > 0)
    return claims.ends("doctests")


if __name__ == "__main__":
    sys.exit(main())
