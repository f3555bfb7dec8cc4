"""exampled.py: prints each public item of the crate for Rust that has no example, and has status 1 then. cargo runs the
examples."""

from __future__ import annotations

import glob
import os
import re
import sys
from typing import Iterator

from tests import TOP

# A public item with what stands above it: lines of documentation, attributes and comments.
ITEM = re.compile(r"((?:^ *(?://|#\[).*\n)*)^ *pub (?:const )?(fn|struct|enum|trait|type) (\w+)", re.M)
# It stands in a module that is not public.
HIDDEN = {"Format"}


def without_example() -> Iterator[str]:
    for path in sorted(glob.glob(os.path.join(TOP, "rust", "src", "*.rs"))):
        with open(path, encoding="utf-8") as file:
            for above, kind, name in ITEM.findall(file.read()):
                if name not in HIDDEN and "/// ```" not in above:
                    yield f"{os.path.basename(path)}: {kind} {name} has no example"


if __name__ == "__main__":
    lacking = list(without_example())
    print("\n".join(lacking))
    sys.exit(1 if lacking else 0)
