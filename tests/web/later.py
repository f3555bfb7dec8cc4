"""The page, and the package for Node, over a library as a later version may be (later.js): notes, faults and statuses
that they do not know are reported by their numbers, and nothing passes for whole."""

from __future__ import annotations

import json
import os
import shutil
from typing import Callable, Generator

from tests import TOP, Claim
from tests.convert.files import get
from tests.web.browser import Browser

FAX = os.path.join(TOP, "samples", "one-mh-page.tif")
SHIM = os.path.join(TOP, "tests", "web", "later.js")
FAULT = "fault page 0 row 0: Unknown 99 300"
# Workers of the page that is looked at load the library so from now on.
LATER = """(() => {{
    while (app.fax) app.close();
    const text = `"use strict";\\n${{Fax.WORKER.map(String).join("\\n")}}\\nnew FaxWorker(self);\\n`;
    const parts = [{before}, text];
    Fax.parts.place = URL.createObjectURL(new Blob(parts, {{ type: "text/javascript" }}));
}})()"""
FINDINGS = '[...document.querySelectorAll("#findings > li, #notes-list li")].map((it) => it.textContent)'
NOTES = [{"page": 0, "strip": 0, "number": 98, "name": "LaterNote"},
         {"page": 0, "strip": None, "number": 99, "name": "Unknown"}]  # fmt: skip
CALLS = ("list", "check", "rows", "salvage", "convert", "salvagedFile")


def opened(browser: Browser, what: str, found: int) -> str:
    """What the page says of a fax over such a library: its report, once so many findings are shown."""
    before = f"self.LATER = {json.dumps(what)};\n{get(SHIM).decode()}"
    browser.run(LATER.format(before=json.dumps(before)))
    browser.choose("#choose", FAX)
    browser.until(f"app.fax && !app.fax.isBusy() && {FINDINGS}.length === {found}")
    return str(browser.run("app.fax.text()"))


def numbers(browser: Browser, _program: str, _room: str) -> Generator[Claim, None, None]:
    """What the page says of them."""
    said = opened(browser, "notes", 2)
    yield "later: notes in the report", [line for line in said.splitlines() if line.startswith("note")], [
        "note page 0 strip 0: N98 LaterNote", "note page 0: N99 Unknown"]
    means = "A note of a later version. Open it with a later version of this page."
    yield "later: notes on the page", browser.run(FINDINGS), [
        f"Page 1, strip 1N98 LaterNote: {means}", f"Page 1N99 Unknown: {means}"]
    yield "later: all notes", browser.run("app.fax.ask('noteLines', {}).then((blob) => blob.text())"), (
        "note page 0 strip 0: N98 LaterNote\nnote page 0: N99 Unknown\n")
    said = opened(browser, "fault", 1)
    yield "later: a fault in the report", FAULT in said, True
    yield "later: a fault on the page", browser.run(
        '[...document.querySelectorAll("#findings .names p")].map((it) => it.textContent)'), [
            "The file, it cannot be read: Unknown 99 300", "Unknown 99 300: A fault of a later version."]
    yield "later: what to do about it", browser.run('document.getElementById("advice").textContent'), (
        "Open it with a later version of this page.")
    said = opened(browser, "status", 0)
    yield f"later: a status is an error, in {said}", (
        browser.run("app.fax.state"), "the library answered with status 99" in said), ("failed", True)
    said = opened(browser, "", 0)
    yield "later: a library of today", "note" not in said and "This fax is whole" in said, True
    browser.run("while (app.fax) app.close()")


def in_node(folder: str, run: Callable[..., tuple[int, str]]) -> Generator[Claim, None, None]:
    """What the package says of them, which is installed in the folder."""
    shutil.copy(os.path.join(TOP, "tests", "web", "later-in-node.mjs"), folder)
    status, text = run(folder, "node", "later-in-node.mjs", SHIM, FAX)
    yield "later: it runs in Node", status, 0
    said = {(line.split("|")[0], line.split("|")[1]): line.split("|")[2:] for line in text.splitlines()}
    yield "later: notes in Node", json.loads(said.get(("notes", "check"), [""] * 4)[1] or "null"), NOTES
    explained = f"{FAULT} (A fault of a later version.)"
    for call in CALLS:
        is_told = call in ("list", "check")
        yield f"later: a fault in Node, {call}", said.get(("fault", call), [""] * 4)[2:], (
            [explained, ""] if is_told else ["", FAULT])
        yield f"later: a status in Node, {call}", said.get(("status", call), [""] * 4)[3], (
            "the library answered with status 99")
        yield f"later: a library of today in Node, {call}", said.get(("", call), [""] * 4)[2:], ["", ""]
