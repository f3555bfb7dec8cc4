"""What the page says in another language where something goes wrong: all of it is of the file of texts."""

from __future__ import annotations

import json
from typing import Any, Generator

from tests import TOP, Claim
from tests.convert.files import put
from tests.web import words
from tests.web.browser import Browser
from tests.web.saying import picture_of

SAMPLE = f"{TOP}/samples/three-pages.tif"
SPEAK = """(() => {
    const box = document.getElementById("language");
    box.value = "%s";
    box.dispatchEvent(new Event("change"));
})()"""
# Workers of the page do something else from now on, by a line after their classes.
INSTEAD = """(() => {{
    while (app.fax) app.close();
    const text = `"use strict";\\n${{Fax.WORKER.map(String).join("\\n")}}\\nnew FaxWorker(self);\\n`;
    Fax.parts.place = URL.createObjectURL(new Blob([text, {more}], {{ type: "text/javascript" }}));
}})()"""
NAME = "three-pages.pdf"
# What a worker does, and what is said of the file that was to be made.
FAILURES = {
    'throw Library.troubleOf("notWritten", 1);': (
        f"{NAME} was not made: page 2 was not written as it is.",
        f"{NAME} wurde nicht erzeugt: Seite 2 wurde nicht so geschrieben, wie sie ist."),
    "throw Library.refusal(99);": (
        f"{NAME} was not made: the library answered with status 99.",
        f"{NAME} wurde nicht erzeugt: Die Bibliothek antwortete mit Status 99."),
    "throw Library.refusal(Library.MEMORY);": (
        f"{NAME} was not made: the browser has no memory left for it.",
        f"{NAME} wurde nicht erzeugt: Der Browser hat keinen Speicher mehr dafür."),
    "null.x;": (
        f"{NAME} was not made: the browser does not say why.",
        f"{NAME} wurde nicht erzeugt: Der Browser sagt nicht, warum."),
}
BROKEN = ("This file was not read: what reads it broke down: the browser does not say why.",
          "Diese Datei wurde nicht gelesen: Was sie liest, brach zusammen: Der Browser sagt nicht, warum.")
SAID = 'document.getElementById("%s").firstChild.data.trim()'


def both(browser: Browser, place: str, said: tuple[str, str]) -> Generator[Claim, None, None]:
    """What is said in one language, and after another one was chosen in that."""
    for code, text in zip(("en", "de", "en"), (*said, said[0])):
        browser.run(SPEAK % code)
        yield f"{code}: what is said", browser.run(SAID % place), text
    browser.run(words.MARK)
    yield "all words are of the file of texts", words.left(browser), []


def failing(browser: Browser, _program: str, _room: str) -> Generator[Claim, None, None]:
    """A file that is not made says why, in each language, also where the browser knows only English."""
    for does, said in FAILURES.items():
        more = f"Saving.prototype.pdf = async () => {{ {does} }};"
        browser.run(INSTEAD.format(more=json.dumps(more)))
        browser.choose("#choose", SAMPLE)
        browser.until('app.fax && app.fax.state === "done" && !document.getElementById("save").hidden')
        browser.run('document.getElementById("save-make").click()')
        browser.until('app.fax.making?.state === "failed" && !app.isDue')
        yield from both(browser, "saved", said)
    browser.run(INSTEAD.format(more=json.dumps("")))
    browser.run("localStorage.clear()")


def breaking(browser: Browser, _program: str, _room: str) -> Generator[Claim, None, None]:
    """So does a file that cannot be read since what reads it breaks down."""
    browser.run(INSTEAD.format(more=json.dumps("FaxWorker.prototype.read = async () => null.x;")))
    browser.choose("#choose", SAMPLE)
    browser.until('app.fax && app.fax.state === "failed" && !app.isDue')
    yield from both(browser, "verdict", BROKEN)
    browser.run(INSTEAD.format(more=json.dumps("")))
    browser.run("localStorage.clear()")


def uncompressed(browser: Browser, _program: str, room: str) -> Generator[Claim, None, None]:
    """A picture without compression is called so in each language."""
    data = picture_of((259, 3, 1, 1), (258, 3, 1, 1), (273, 4, 1, 8), (278, 3, 1, 1), (279, 4, 1, 1))
    browser.choose("#choose", put(f"{room}/plain.tif", data))
    browser.until('app.fax && app.fax.state === "done" && !app.isDue')
    yield from both(browser, "verdict", (
        "This is no fax that is read here, but a picture in TIFF without compression. A picture viewer opens it.",
        "Dies ist kein Fax, das hier gelesen wird, sondern ein TIFF-Bild ohne Kompression. Ein Bildbetrachter öffnet "
        "es."))
    browser.run("localStorage.clear(); while (app.fax) app.close()")


PARTS: list[Any] = [failing, breaking, uncompressed]
