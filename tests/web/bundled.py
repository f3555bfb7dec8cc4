"""The package of web/npm through a bundler, esbuild of Debian: what comes out runs in Node and in a page of Chromium, with
the library beside it and inside it, and says of files what the program says."""

from __future__ import annotations

import base64
import json
import os
import re
import shutil
import subprocess
from typing import Generator

from tests import TOP, Claim
from tests.convert.files import get, put
from tests.web import faxes
from tests.web.chromium import Chromium
from tests.web.headers import Served

# So many of the files that the package is tried with are one that bundles are.
EACH = 5
# The scripts of this folder that are bundled, the words of esbuild, and whether the library is put beside what comes out.
BUNDLES: dict[str, tuple[list[str], bool]] = {
    "said-in-node": (["--platform=node"], True),
    "said-in-page": ([], True),
    "said-from-inside": (["--loader:.wasm=binary"], False),
}


def is_the_programs(program: str, path: str, said: dict[str, str], how: str) -> Generator[Claim, None, None]:
    """Of a file all is said that the program says, and all is made that it makes."""
    name = f"{how}: {os.path.basename(path)}"
    for command in ("list", "rows", "check"):
        wanted = re.sub(r"(?m)^next .*\n", "", faxes.said(program, command, path))
        yield f"{name}: {command}", said[command] + "\n", wanted
    salvaged = [line for line in faxes.said(program, "salvage", path).splitlines() if line[:4] in ("row ", "lost")]
    yield f"{name}: salvage", [line for line in said["salvage"].splitlines() if line[:4] != "faul"], salvaged
    for target in ("mmr", "mr", "mh", "pbm"):
        ran = subprocess.run([program, "convert", "-o", target, path], capture_output=True, check=False)
        made = base64.b64encode(ran.stdout).decode() if ran.returncode == 0 else ran.stderr.decode().strip()
        yield f"{name}: convert -o {target}", said[target] == made, True
        left = subprocess.run([program, "salvage", "-o", target, path], capture_output=True, check=False).stdout
        yield f"{name}: salvage -o {target}", said[f"salvaged {target}"] == base64.b64encode(left).decode(), True


def bundle(folder: str, name: str) -> str:
    """Bundles a script of a folder in which the package is installed, into a folder of its own, and names that."""
    words, is_beside = BUNDLES[name]
    made = f"{folder}/{name}"
    subprocess.run(["esbuild", f"{name}.mjs", "--bundle", "--minify", "--format=esm", *words, "--log-level=error",
                    f"--outfile={made}/bundle.mjs"], cwd=folder, check=True)
    if is_beside:
        shutil.copy(f"{folder}/node_modules/faxpages/faxpages.wasm", made)
    put(f"{made}/index.html", b'<!DOCTYPE html><meta charset="utf-8"><script type="module" src="bundle.mjs"></script>')
    return made


def claims(program: str, folder: str, paths: list[str]) -> Generator[Claim, None, None]:
    """Bundles in Node, and in Chromium from a server; in folders from which no package is found."""
    if not shutil.which("esbuild"):
        print("SKIPPED: bundles of the package of web/npm (esbuild)")
        return
    for name in BUNDLES:
        shutil.copy(f"{TOP}/tests/web/{name}.mjs", folder)
    made = {name: bundle(folder, name) for name in BUNDLES}
    shutil.rmtree(f"{folder}/node_modules")
    yield "bundles: files are read", len(paths) > 20, True
    ran = subprocess.run(["node", f"{made['said-in-node']}/bundle.mjs", *paths], capture_output=True, check=True)
    for path, said in zip(paths, json.loads(ran.stdout)["told"], strict=True):
        yield from is_the_programs(program, path, said, "a bundle in Node")
    if not shutil.which("chromium"):
        print("SKIPPED: bundles of the package of web/npm in a page (chromium)")
        return
    with Chromium() as browser:
        for name in ("said-in-page", "said-from-inside"):
            server = Served({}, made[name])
            browser.go(server.address)
            for path in paths:
                text = json.dumps(base64.b64encode(get(path)).decode())
                yield from is_the_programs(program, path, browser.run(f"app.said({text})"), name)
            server.shutdown()
            server.server_close()
