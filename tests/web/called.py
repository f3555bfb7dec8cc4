"""What the package of web/npm does that the program has no command for, in each Node that is at hand: rows as runs,
pages as pictures, what is written of what is left, bare data, and what it says of arguments that are none."""

from __future__ import annotations

import base64
import json
import os
import random
import re
import shutil
import subprocess
from typing import Any, Callable, Generator

from tests import TOP, Claim
from tests.convert import files as parts_of
from tests.convert import pages
from tests.convert.files import get, put
from tests.web import faxes

SAMPLE = f"{TOP}/samples/one-mh-page.tif"
SCRIPTS = ("calls-in-node.mjs", "bare-in-node.mjs", "arguments-in-node.cjs")
TAKEN = ("Buffer", "Uint8Array", "ArrayBuffer", "DataView", "Int8Array")
WANTED = "TypeError: a file is wanted as bytes, such as a Uint8Array, and "
REFUSED = {
    "Uint16Array": "Uint16Array has numbers of more than a byte: hand over the bytes themselves",
    "Float64Array": "Float64Array has numbers of more than a byte: hand over the bytes themselves",
    "path": "a text is none: read the file of this path first, as by readFileSync",
    "Array": "Array is none",
    "Blob": "a Blob is none: hand over what its arrayBuffer() gives, once it was awaited",
    "promise": "a promise is none: await it first",
    "undefined": "undefined is none", "null": "null is none", "number": "Number is none", "object": "Object is none",
}
ODD = {
    "convert to": "TypeError: gif is none of pbm, mh, mr, mmr",
    "no page": "RangeError: the fax has no page 9: pages are numbered from 0",
    "half a page": "RangeError: a page is a whole number from 0 to 4294967295, and not 0.5",
    "text for a page": "TypeError: a page is wanted as a number, and is string",
    "no pages": "RangeError: a fax has at least one page, and there is none",
    "bytes for pages": "TypeError: pages are wanted as a list of { form, raster }, such as salvage gives",
    "a short raster": "RangeError: the raster of page 0 has 3 bytes, and 2 rows of 9 pels have 4",
    "a page without a form": "TypeError: page 1 has no form: one that cannot be read is left out first",
    "a wide page": "RangeError: the width of page 0 is a whole number from 1 to 65535, and not 70000",
    "another coding": "TypeError: pbm is none of mh, mr, mmr",
    "text for a coding": "TypeError: how the data are coded is wanted as an object, and is string",
    "bare without a coding": "TypeError: undefined is none of mh, mr, mmr",
    "a bare width": "RangeError: width is a whole number from 1 to 65535, and not 0",
    "no bare data": "RangeError: no coding finds rows in these data: say how they are coded",
    "a bare path": "TypeError: bare data is wanted as bytes, such as a Uint8Array, and "
                   "a text is none: read the file of this path first, as by readFileSync",
    "another module": "TypeError: the library is wanted as the module of faxpages.wasm, and this is another thing",
}
Run = Callable[..., tuple[int, str]]


def nodes() -> list[str]:
    """The programs of Node that are tried: the one of the PATH, and those that FAXPAGES_NODES names."""
    return ["node", *filter(None, os.environ.get("FAXPAGES_NODES", "").split(os.pathsep))]


def claims(program: str, folder: str, room: str, run: Run) -> Generator[Claim, None, None]:
    """In the folder the package is installed."""
    for name in SCRIPTS:
        shutil.copy(f"{TOP}/tests/web/{name}", folder)
    for node in nodes():
        yield from arguments(folder, run, node)
        yield from calls(program, folder, room, run, node)
        yield from bare(program, folder, room, run, node)


def arguments(folder: str, run: Run, node: str) -> Generator[Claim, None, None]:
    """What is a file is taken, and all else is refused at once, by a sentence; by `require`."""
    status, text = run(folder, node, "arguments-in-node.cjs", SAMPLE)
    yield f"{node}: require", status, 0
    told = json.loads(text)
    print(f"(npm: require in Node {told['node']})")
    with open(f"{TOP}/VERSION", encoding="ascii") as version:
        yield f"{node}: the version", told["version"], version.read().strip()
    for name, said in told["given"].items():
        first = told["given"]["Buffer"]
        yield f"{node}: a file as {name}", said, first if name in TAKEN else dict.fromkeys(
            first, WANTED + REFUSED[name])
    yield f"{node}: it is a file", [first["list"], first["rows"], first["rgba"]], [1, "function", 8]
    yield f"{node}: other arguments", told["odd"], ODD
    yield f"{node}: a path for the library", told["path"], WANTED.replace("a file", "the library") + REFUSED["path"]
    yield f"{node}: a fault has its name", told["fault"], [
        "FaxFault", *["FaxFault: fault page 1 row 2: BadCode"] * 2, False]


def resolved(program: str, room: str) -> list[str]:
    """Faxes of other resolutions than 204 by 196, one of them damaged, one in centimetres."""
    image = pages.image(217, [pages.draw_row(random.Random(at), "marks", 217, 0, 0) for at in range(60)])
    data = faxes.convert(program, image * 2, "-o", "mr", "--strip", "20")
    ratio = b"\xc4\0\0\0\1\0\0\0"
    low = data.replace(ratio, b"\x62\0\0\0\1\0\0\0")
    damaged = bytearray(low)
    damaged[len(low) // 2] ^= 16
    metric = bytearray(data.replace(b"\xcc\0\0\0\1\0\0\0", b"\x21\x03\0\0\x0a\0\0\0").replace(
        ratio, b"\x85\x01\0\0\x0a\0\0\0"))
    for at in range(len(metric) - 12):
        if metric[at:at + 4] == b"\x28\1\3\0":
            metric[at + 8] = 3
    return [put(f"{room}/{name}.tif", bytes(it)) for name, it in (
        ("low", low), ("low-damaged", damaged), ("metric", metric))]


def calls(program: str, folder: str, room: str, run: Run, node: str) -> Generator[Claim, None, None]:
    """Runs are the program's, pictures are those of faxpages-picture, and what is written has the rows that are left,
    in their resolution."""
    mine = resolved(program, room)
    paths = [*faxes.all_files(program, room)[::4], f"{TOP}/samples/received/over-a-noisy-line.tif", *mine]
    status, text = run(folder, node, "calls-in-node.mjs", *paths)
    yield f"{node}: calls", status, 0
    pictures = 0
    for path, told in zip(paths, json.loads(text), strict=True):
        name = f"{node}: {os.path.basename(path)}"
        wanted = re.sub(r"(?m)^next .*\n", "", faxes.said(program, "rows", path))
        yield f"{name}: runs", told["runs"] + "\n", wanted
        for page, picture in enumerate(told["pictures"]):
            drawn = faxes.picture(program, path, page)
            if drawn and not isinstance(picture, str):
                pictures += 1
                yield f"{name}: picture {page}", [*picture[:2], base64.b64decode(picture[2])], [*drawn[:3]]
        yield from written(program, name, path, told["written"], room)
    yield f"{node}: there are pictures", pictures > 20, True
    yield "faxes have other resolutions", [faxes.said(program, "list", path).splitlines()[0].split()[8:]
                                           for path in mine], [
        ["204/1", "98/1", "2"], ["204/1", "98/1", "2"], ["801/10", "389/10", "3"]]


def written(program: str, name: str, path: str, told: dict[str, str], room: str) -> Generator[Claim, None, None]:
    """What is written is a whole fax of the pages that can be read: width, rows and resolution as they were, and each
    row that is left."""
    forms = [line.split() for line in faxes.said(program, "list", path).splitlines() if line.startswith("page ")]
    salvaged = [line.split() for line in faxes.said(program, "salvage", path).splitlines()]
    there = sorted({int(words[1]) for words in salvaged if words[0] == "row" or (
        words[0] == "lost" and len(words) == 5 and words[4].isalpha() and words[2].isdigit())})
    for to, data in told.items():
        if data.startswith("fault ") or not there:
            yield f"{name}: {to}: nothing is written of {len(there)} pages", data.startswith("fault "), True
            continue
        made = put(f"{room}/written.tif", base64.b64decode(data))
        listed = [line.split() for line in faxes.said(program, "list", made).splitlines() if line.startswith("page ")]
        known = {words[1]: words for words in forms}
        yield f"{name}: {to}: as many pages as can be read", len(listed), len(there)
        yield f"{name}: {to}: pages", [
            [*words[2:5], *words[8:]] for words, page in zip(listed, there) if str(page) in known], [
            [*known[str(page)][2:4], to, *known[str(page)][8:]] for page in there if str(page) in known]
        rows = {(int(words[1]), int(words[2])): words[3:] for words in (
            line.split() for line in faxes.said(program, "rows", made).splitlines()) if words[0] == "row"}
        places = {page: at for at, page in enumerate(there)}
        found = {(places[int(words[1])], int(words[2])): words[3:] for words in salvaged if words[0] == "row"}
        yield f"{name}: {to}: rows that are found", {place: rows.get(place) for place in found}, found
        width = {at: words[2] for at, words in enumerate(listed)}
        yield f"{name}: {to}: other rows are white", [place for place, runs in rows.items()
                                                      if place not in found and runs != [width[place[0]]]], []


def bare(program: str, folder: str, room: str, run: Run, node: str) -> Generator[Claim, None, None]:
    """Of bare data as many rows are left as of a TIFF file with the same bytes, whether it is said how they are coded,
    or guessed."""
    words: list[str] = []
    wanted: list[Any] = []
    for seed, coding in enumerate(faxes.CODINGS):
        rng = random.Random(seed)
        image = pages.image(1728, [pages.draw_row(rng, "marks", 1728, 0, 0) for _ in range(400)])
        for order, hits in ((1, 0), (2, 3)):
            data = bytearray(faxes.convert(program, image, "-o", coding, "--order", str(order)))
            ((place, size),) = [pair for fields in parts_of.directories_of(bytes(data))
                                for pair in zip(fields[273], fields[279])]
            for _ in range(hits):
                data[place + rng.randrange(size // 4, size)] ^= 1 << rng.randrange(8)
            tiff = put(f"{room}/bare-{coding}.tif", bytes(data))
            path = put(f"{room}/bare-{coding}-{order}.bin", bytes(data[place:place + size]))
            said = [line.split() for line in faxes.said(program, "salvage", tiff).splitlines()]
            lost = [[int(it) for it in words[2:4]] + [words[4]] for words in said if words[0] == "lost"]
            for how in (None, {"coding": coding, "order": order, "rows": 400}):
                words += [path, json.dumps(how)]
                wanted.append((f"bare {coding} {order} {how}", coding, order, how, lost,
                               sum(it[0] == "row" for it in said)))
    status, text = run(folder, node, "bare-in-node.mjs", *words)
    yield f"{node}: bare data", status, 0
    for (name, coding, order, how, lost, rows), told in zip(wanted, json.loads(text), strict=True):
        name = f"{node}: {name}"
        yield f"{name}: how it is coded", [told["how"][key] for key in ("coding", "order", "width")], [
            coding, order, 1728]
        missing = sum(it[1] for it in told["lost"])
        yield f"{name}: rows that are found", told["form"]["rows"] - missing, rows
        if how:
            yield f"{name}: what is lost", told["lost"], lost
        yield f"{name}: the file has the same rows", told["again"] == [told["raster"]], True


def example(program: str, folder: str, run: Run) -> Generator[Claim, None, None]:
    """The README's second example runs as it stands, after the lines that load the library; and the short program does."""
    texts = re.findall(r"```js\n(.*?)```", get(f"{TOP}/web/npm/README.md").decode(), re.S)
    loads = "".join(line for line in texts[0].splitlines(True) if line.startswith(("import", "const")))
    tail = """
console.log(JSON.stringify([pages.length, fault, report.rows, width, height, data.length,
    faxpages.list(mended).pages[0], faxpages.check(mmr).rows, bare.form.rows, bare.how.coding,
    faxpages.check(tiff).rows]));
"""
    image = pages.image(1728, [pages.draw_row(random.Random(at), "marks", 1728, 0, 0) for at in range(90)])
    fax = faxes.convert(program, image, "-o", "mmr").replace(b"\xc4\0\0\0\1\0\0\0", b"\x62\0\0\0\1\0\0\0")
    (strip,) = parts_of.strips_of(fax, next(parts_of.directories_of(fax)))
    put(f"{folder}/fax.tif", fax)
    put(f"{folder}/fax.g4", strip)
    put(f"{folder}/example.mjs", (loads + texts[1] + tail).encode())
    page = {"page": 0, "width": 1728, "rows": 90, "order": 1, "photometric": 0, "coding": "mh", "strips": 1,
            "across": [204, 1], "down": [98, 1], "unit": 2}
    status, said = run(folder, "node", "example.mjs")
    yield f"npm: the README's example runs: {said[:300]}", status, 0
    yield "npm: what the README's example gives", json.loads(said), [
        1, None, 90, 1728, 180, 4 * 1728 * 180, page, 90, 90, "mmr", 90]
    shutil.copy(f"{TOP}/examples/left/left.mjs", folder)
    yield "npm: the short program prints and copies what is left", run(
        TOP, "tests/library/copies", program, "examples/left/left.mjs", "node", f"{folder}/left.mjs"), (0, "")
    put(f"{folder}/required.cjs", (texts[2] + "console.log(typeof Faxpages.load, FaxFault.name)").encode())
    yield "npm: and its line with require", run(folder, "node", "required.cjs"), (0, "function FaxFault\n")


def shaken(folder: str) -> Generator[Claim, None, None]:
    """A bundler leaves the package out where nothing of it is used: it does nothing by being loaded."""
    if not shutil.which("esbuild"):
        print("SKIPPED: what a bundler leaves out of the package of web/npm (esbuild)")
        return
    put(f"{folder}/unused.mjs", b'import { FaxFault } from "faxpages";\nconsole.log("none of it");\n')
    made = subprocess.run(["esbuild", "unused.mjs", "--bundle", "--format=esm", "--platform=node", "--log-level=error"],
                          cwd=folder, capture_output=True, check=True).stdout
    yield "npm: what is not used is left out", len(made) < 200 and b"none of it" in made, True
