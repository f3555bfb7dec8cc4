"""A copy of it whose workers break."""

from __future__ import annotations

import os
import shutil

from tests import MODULE

HERE = os.path.dirname(os.path.abspath(__file__))


def broken_module(folder: str) -> str:
    """A folder with a copy of the module whose workers break (broken.py)."""
    made = os.path.join(folder, "broken module")
    if not os.path.exists(made):
        shutil.copytree(os.path.join(MODULE, "faxpages"), f"{made}.new/faxpages")
        shutil.copy(os.path.join(HERE, "broken.py"), f"{made}.new/faxpages/_broken.py")
        with open(f"{made}.new/faxpages/__init__.py", "a", encoding="utf-8") as module:
            module.write("\nfrom . import _broken  # noqa\n")
        os.rename(f"{made}.new", made)
    return made
