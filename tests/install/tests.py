"""Leads the scripts of this folder to the package of the tests, tests/__init__.py: a script is run by its path, and Python
looks for modules in its folder. It is the same in each folder; `rt ci` takes no links."""

import importlib.util
import os
import sys

ABOVE = os.path.dirname(os.path.dirname(os.path.abspath(__file__)))
PLACES = [os.path.join(ABOVE, "__init__.py"), os.path.join(ABOVE, "tests", "__init__.py")]
spec = importlib.util.spec_from_file_location("tests", next(place for place in PLACES if os.path.exists(place)))
if spec is None or spec.loader is None:
    raise ImportError("there is no package of the tests")
sys.modules["tests"] = package = importlib.util.module_from_spec(spec)
spec.loader.exec_module(package)
