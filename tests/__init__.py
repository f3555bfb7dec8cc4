"""The tests as one package: a script takes what others have too by its full name, as by
`from tests.plain import drawing`.

A script is run by its path, as tests/plain/compare: then Python looks for modules in the folder of the script. There
stands tests.py, the same in each folder, that leads here. This is the only place where Python is told of other folders: of the module,
which is the one of these sources, or the one that OPERATED names, of that of CUPS, and of what measures, in bench."""

import os
import sys

HERE = os.path.dirname(os.path.realpath(__file__))
TOP = os.path.dirname(HERE)
MODULE = os.path.abspath(os.environ.get("OPERATED") or os.path.join(TOP, "python"))

# What a test says: a name, what came, and what is wanted.
Claim = tuple[str, object, object]

# It is a package by whichever of its names it was found.
__path__ = [HERE]
sys.path[1:1] = [MODULE]
sys.path += [os.path.join(TOP, "cups"), os.path.join(TOP, "bench")]
