"""What a viewer does beside showing pages: pages that are chosen to be saved, inverting, a size that is typed, other
languages, and files that a page hands over which embeds this one."""

from __future__ import annotations

import base64
import json
import os
import re
import shutil
import subprocess
from typing import Any, Generator

from tests import TOP, Claim
from tests.convert import pages
from tests.convert.files import get, put
from tests.finding import found
from tests.web import faxes, missing
from tests.web.browser import Browser
from tests.web.headers import Served

SAMPLE = f"{TOP}/samples/three-pages.tif"
SAID = 'document.getElementById("saved").textContent'
# A page that embeds the other one, and notes what that sends to it.
OUTER = """<!DOCTYPE html><meta charset="utf-8"><title>A client</title><link rel="icon" href="data:,">
<script>var app = {}, came = []; addEventListener("message", ({ data, origin }) => came.push([data, origin]));</script>
<iframe src="%s" width="1000" height="700"></iframe>"""


def opened(browser: Browser, path: str) -> None:
    browser.run("while (app.fax) app.close()")
    browser.choose("#choose", path)
    browser.until('app.fax && app.fax.state === "done" && !app.isDue && app.view.form')
    browser.run("document.activeElement.blur()")


def made(browser: Browser, kind: str, chosen: str) -> tuple[str, bytes, str]:
    """Has a file be made of pages that are named: its name, its bytes, and what is said."""
    browser.run(f"""(() => {{
        document.getElementById("chosen").value = {json.dumps(chosen)};
        document.getElementById("save").elements.kind.value = "{kind}";
        document.getElementById("save-make").click();
    }})()""")
    browser.until('!app.makings.working && app.fax.making && app.fax.making.state !== "works" && !app.isDue')
    data = browser.run("""app.fax.making.blob.arrayBuffer().then((it) =>
        btoa(Array.from(new Uint8Array(it), (byte) => String.fromCharCode(byte)).join("")))""")
    return browser.run("app.fax.making.name"), base64.b64decode(data), browser.run(SAID)


def chosen(browser: Browser, program: str, room: str) -> Generator[Claim, None, None]:
    """What is saved has the pages that are named, and no other; what names none is refused, and nothing is made."""
    data = faxes.drawn(program, 41, 5)
    path = put(f"{room}/five.tif", data)
    opened(browser, path)
    images = faxes.pels_of_pbm(faxes.convert(program, data, "-o", "pbm"))
    for text, wanted in (("2", [1]), ("4-5, 1", [0, 3, 4]), ("", [0, 1, 2, 3, 4])):
        name, got, said = made(browser, "pbm", text)
        yield f"pages {text!r}: those are saved", faxes.pels_of_pbm(got) == [images[page] for page in wanted], True
        name_of = {"2": "five-pages-2.pbm", "": "five.pbm"}.get(text, "five-pages-1,4-5.pbm")
        yield f"pages {text!r}: what is said", (name, said), (
            name_of, f"{name_of} was made, read again and compared: it is right. Save {name_of} again")
        got = faxes.convert(program, made(browser, "tiff2", text)[1], "-o", "pbm")
        yield f"pages {text!r}: as TIFF", faxes.pels_of_pbm(got) == [images[page] for page in wanted], True
        pdf = made(browser, "pdf", text)[1]
        yield f"pages {text!r}: as PDF", len(re.findall(rb"/Type /Page ", pdf)), len(wanted)
    for text in ("6", "2-1", "x"):
        browser.run(f"""app.fax.setMaking(null); document.getElementById("chosen").value = "{text}";
            document.getElementById("save-make").click()""")
        yield f"pages {text!r} are refused", browser.run(
            '[document.getElementById("printing").textContent, app.fax.making]'), [
                "Say pages from 1 to 5, as 1-3, 5.", None]
    yield from picked(browser)
    yield from chosen_damaged(browser, program, room)


def picked(browser: Browser) -> Generator[Claim, None, None]:
    """Pages are chosen in their list too, by the mouse with Ctrl, and are marked there."""
    browser.run('document.getElementById("chosen").value = ""; app.render()')
    for page, text in ((3, "4"), (1, "2,4"), (2, "2-4"), (3, "2-3")):
        browser.run(f"""document.getElementById("thumb-{page}").dispatchEvent(new MouseEvent("click", {{ ctrlKey: true,
            bubbles: true }}))""")
        yield f"page {page} is chosen, or not any more", browser.run('document.getElementById("chosen").value'), text
    yield "it is marked", browser.run(
        '[...document.querySelectorAll("#thumbs-all .picked")].map((it) => it.id).sort()'), ["thumb-1", "thumb-2"]
    yield "none is gone to", browser.run("app.page"), 0
    browser.run("app.show(app.fax)")
    yield "the next file has none chosen", browser.run('document.getElementById("chosen").value'), ""


def chosen_damaged(browser: Browser, program: str, room: str) -> Generator[Claim, None, None]:
    """Of pages that are named, missing rows are white in a TIFF file, and those that have some are left out of PBM; and
    that is said."""
    opened(browser, put(f"{room}/damaged.tif", missing.noisy(program, 32, [200, 200, 200], [0, 0, 2])))
    yield "a whole page", made(browser, "tiff3", "1")[2].startswith(
        "damaged-pages-1-mmr.tif was made, read again and compared: it is right."), True
    yield "two, of which one is damaged", "missing rows are white" in made(browser, "tiff3", "2-3")[2], True
    yield "two as PBM", made(browser, "pbm", "2-3")[2].startswith("damaged-pages-2-3.pbm has 1 of 2 pages"), True
    yield "whole pages as PDF", "it is right" in made(browser, "pdf", "1-2")[2], True
    yield "a damaged one as PDF", "missing rows are grey" in made(browser, "pdf", "3")[2], True
    browser.run('document.getElementById("chosen").value = ""; while (app.fax) app.close()')


def seen(browser: Browser, room: str) -> tuple[int, int, bytes]:
    """What is seen in the window, as greys."""
    browser.picture(f"{room}/seen.png")
    told = subprocess.run(["pngtopnm", f"{room}/seen.png"], capture_output=True, check=True).stdout
    grey = subprocess.run(["ppmtopgm"], input=told, capture_output=True, check=True).stdout
    wide, high, raster = found(rb"\AP5\s+(\d+)\s+(\d+)\s+255\s(.*)", grey, re.S).groups()
    return int(wide), int(high), raster


def inverted(browser: Browser, program: str, room: str) -> Generator[Claim, None, None]:
    """White is shown black by a button and a key, and as it was again; the bytes of the page stay."""
    if not shutil.which("pngtopnm"):
        print("SKIPPED: what is seen of a page that is inverted (netpbm)")
        return
    image = pages.image(800, [((1 << 400) - 1) << 400] * 900)
    opened(browser, put(f"{room}/halves.tif", faxes.convert(program, image, "-o", "mmr")))
    browser.until("!app.view.isWaiting && [...app.view.sheet.tiles.values()].every((tile) => tile.dataset.drawn)")
    box = browser.run("""(() => {
        const { left, top, width, height } = app.view.sheet.element.getBoundingClientRect();
        return [left + width / 4, left + 3 * width / 4, top + height / 2].map(Math.round);
    })()""")
    tried = (("", (0, 255)), ("button", (255, 0)), ("key", (0, 255)), ("key", (255, 0)), ("button", (0, 255)))
    for how, wanted in tried:
        if how == "button":
            browser.run('document.getElementById("invert").click()')
        elif how:
            browser.run("document.activeElement.blur()")
            browser.press("i")
        browser.run("new Promise((resolve) => requestAnimationFrame(() => requestAnimationFrame(resolve)))")
        wide, _, raster = seen(browser, room)
        yield f"after {how}: the halves", tuple(raster[box[2] * wide + x] for x in box[:2]), wanted
        yield f"after {how}: the button says so", browser.run(
            'document.getElementById("invert").getAttribute("aria-pressed")'), "true" if wanted[0] else "false"
        yield f"after {how}: the page", browser.run("""app.fax.ask("part", { page: 0, x: 0, y: 0, width: 800, height: 1,
            across: 1, down: 1 }).then(({ pels }) => [pels[0] & 255, pels[799] & 255])"""), [0, 255]


def zoomed(browser: Browser, _program: str, _room: str) -> Generator[Claim, None, None]:
    """How large the page is stands in a field, and is what is typed there; 100% is as large as on paper."""
    opened(browser, f"{TOP}/samples/received/as-it-was-sent.tif")
    field = 'document.getElementById("zoom").value'
    typed = (("100", 100), ("50%", 50), (" 25 % ", 25), ("62,4", 62.4), ("0", 62.4), ("wide", 62.4), ("", 62.4))
    for text, wanted in typed:
        browser.run(f"""(() => {{
            const field = document.getElementById("zoom");
            field.focus();
            field.value = {json.dumps(text)};
            field.dispatchEvent(new Event("change"));
            field.blur();
        }})()""")
        inches = browser.run("app.view.sheet.element.offsetWidth / 96 / (app.view.form.width / app.view.form.across)")
        yield f"{text!r} is typed", (browser.run(field), abs(100 * inches - wanted) < 0.2), (f"{wanted:.0f}%", True)
    browser.run('document.getElementById("larger").click()')
    yield "a button changes it", browser.run(f"[{field}, app.view.percent]"), ["78%", 78]
    browser.press("w")
    yield "so does a key", browser.run(f"{field} === `${{app.view.percent}}%` && app.view.zoom"), "wide"
    browser.run('document.getElementById("zoom").focus()')
    yield "a size that is typed is no key of the page", browser.run("app.view.zoom"), "wide"
    for text, least in (("99999", 800), ("0.001", 1)):
        browser.run(f"""document.getElementById("zoom").value = "{text}";
            document.getElementById("zoom").dispatchEvent(new Event("change"))""")
        yield f"{text}: it stays within what there is room for", browser.run("app.view.percent") >= least, True
    browser.run("document.activeElement.blur(); app.view.setZoom('whole'); while (app.fax) app.close()")


def spoken(browser: Browser, _program: str, _room: str) -> Generator[Claim, None, None]:
    """Another language is chosen at the top: all words of the page are those of its file, and it is kept."""
    address = browser.run("location.href")
    opened(browser, SAMPLE)
    yield "it speaks English first", browser.run("[document.documentElement.lang, TEXTS.language]"), ["en", "English"]
    speak = """(() => {
        const box = document.getElementById("language");
        box.value = "%s";
        box.dispatchEvent(new Event("change"));
    })()"""
    words = """[...document.querySelectorAll("[data-text], [data-label]")].filter((it) => {
        const { text, label } = it.dataset;
        return (text && it.textContent !== TEXTS.page[text]) ||
            (label && it.getAttribute("aria-label") !== TEXTS.page[label]);
    }).map((it) => it.outerHTML)"""
    wanted = {
        "de": ("Teilweise lesbar. 1 von 6 Zeilen fehlt, auf Seite 3.", "Seite 3: 1 Stelle, 1 Zeile", "3: ohne 1 Zeile"),
        "en": ("Readable in part. 1 of 6 rows is missing, on page 3.", "Page 3: 1 place, 1 row", "3: 1 row missing"),
    }
    for code, said in wanted.items():
        browser.run(speak % code)
        yield f"{code}: all words of the page", browser.run(words), []
        yield f"{code}: what is said of the file", browser.run("""[document.getElementById("verdict"),
            document.querySelector("#findings summary"), document.querySelector("#thumb-2 span")].map(
                (it) => it.textContent)"""), [*said]
        yield f"{code}: it is said which language it is", browser.run(
            "[document.documentElement.lang, TEXTS === LANGUAGES.get(document.documentElement.lang)]"), [code, True]
    browser.run(speak % "de")
    browser.go(address)
    yield "it is kept", browser.run('[document.documentElement.lang, document.getElementById("language").value]'), [
        "de", "de"]
    yield "numbers are written as there", browser.run('sayCount(1234567, "row")'), "1.234.567 Zeilen"
    browser.run("localStorage.clear(); while (app.fax) app.close()")
    browser.go(address)
    yield "and forgotten", browser.run("document.documentElement.lang"), "en"


class Embedders:
    """The page on a server, and pages that embed it: one of its own origin, one of an origin that it names, and one of
    another. Each has a port, and so an origin, of its own."""

    def __init__(self, room: str) -> None:
        self.inner = f"{room}/inner"
        shutil.copytree(f"{TOP}/web", self.inner, dirs_exist_ok=True)
        self.servers = {name: Served({}, self.folder(room, name)) for name in ("own", "named", "other")}
        page = get(f"{TOP}/web/index.html").decode()
        origin = self.servers["named"].address.rpartition("/")[0]
        named = page.replace('name="faxpages-embedders" content=""',
                             f'name="faxpages-embedders" content="https://fax.example {origin}"')
        assert named != page
        put(f"{self.inner}/index.html", named.encode())
        inner = self.servers["own"].address
        for name in self.servers:
            put(f"{self.folder(room, name)}/outer.html", (OUTER % inner).encode())

    def folder(self, room: str, name: str) -> str:
        if name == "own":
            return self.inner
        os.makedirs(f"{room}/{name}", exist_ok=True)
        return f"{room}/{name}"

    def address(self, name: str) -> str:
        return self.servers[name].address.replace("index.html", "outer.html")

    def close(self) -> None:
        for server in self.servers.values():
            server.shutdown()
            server.server_close()


def embedded(browser: Browser, program: str, room: str) -> Generator[Claim, None, None]:
    """A page that embeds this one may send it files, if it is of the same origin, or of one that is named; what another
    sends is dropped, without an answer."""
    first = browser.run("location.href")
    known = Embedders(room)
    origin = known.servers["own"].address.rpartition("/")[0]
    data = base64.b64encode(get(SAMPLE)).decode()
    send = f"""(() => {{
        const bytes = Uint8Array.from(atob("{data}"), (letter) => letter.charCodeAt(0));
        const file = (name, data) => ({{ name, data }});
        frames[0].postMessage({{ faxpages: "open", files: [file("one.tif", bytes.buffer), file("two.tif", bytes),
            file("three.tif", new Blob([bytes, "more"]))] }}, "*");
    }})()"""
    for name in ("own", "named"):
        browser.go(known.address(name))
        browser.until("came.length > 0")
        yield f"{name}: it is said that files may be sent", browser.run("came.splice(0)"), [
            [{"faxpages": "ready"}, origin]]
        browser.run(send)
        browser.until("came.length > 0")
        yield f"{name}: they are opened", browser.run("came.splice(0)"), [[
            {"faxpages": "opened", "names": ["one.tif", "two.tif", "three.tif"]}, origin]]
        for files in ("'https://fax.example/one.tif'", "[]", "[{ name: 'x.tif', data: 'https://fax.example/x.tif' }]",
                      "[{ name: '', data: new ArrayBuffer(1) }]", "undefined"):
            browser.run(f"frames[0].postMessage({{ faxpages: 'open', files: {files} }}, '*')")
            browser.until("came.length > 0")
            yield f"{name}: {files} is refused", browser.run("came.splice(0)[0][0].faxpages"), "refused"
    yield from shown_inside(browser, known, send)
    browser.go(known.address("other"))
    browser.run(f"""new Promise((resolve) => {{
        const frame = document.querySelector("iframe");
        const send = () => {{ {send}; setTimeout(resolve, 1500); }};
        frame.addEventListener("load", send);
        setTimeout(send, 1000);
    }})""")
    yield "other: nothing is answered", browser.run("came"), []
    asked = [path for server in known.servers.values() for path in server.asked]
    yield "what was sent is asked of no server", [path for path in asked if ".tif" in path], []
    known.close()
    browser.go(first)


def shown_inside(browser: Browser, known: Embedders, send: str) -> Generator[Claim, None, None]:
    """What was sent is read and shown as any other file; sent again it is shown, and not listed twice."""
    browser.go(known.address("own"))
    browser.until("came.length > 0")
    for _ in range(2):
        browser.run(send)
        browser.until("""frames[0].document.getElementById("verdict").textContent.startsWith("Readable in part.") &&
            frames[0].document.querySelector(".current canvas[data-drawn]") &&
            frames[0].document.querySelectorAll("#files-list .damaged").length === 3 &&
            frames[0].document.querySelectorAll("#files-list button").length === 3""")
    yield "what was sent is shown", browser.run("""[frames[0].document.getElementById("name").textContent,
        frames[0].document.getElementById("verdict").textContent]"""), [
            "one.tif", "Readable in part. 1 of 6 rows is missing, on page 3."]


def stranger(browser: Browser, _program: str, room: str) -> Generator[Claim, None, None]:
    """What a page sends to itself, or to one that it does not embed, is no file."""
    before = browser.run("app.faxes.length")
    browser.run("""new Promise((resolve) => {
        postMessage({ faxpages: "open", files: [{ name: "x.tif", data: new ArrayBuffer(9) }] }, "*");
        setTimeout(resolve, 300);
    })""")
    yield "a message of its own opens nothing", browser.run("app.faxes.length"), before


PARTS: list[Any] = [chosen, inverted, zoomed, spoken, stranger]
