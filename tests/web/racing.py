"""Late answers and ended workers: no picture, no result and no word of one fax stands under another, and whatever
becomes of a worker or of a file is said, and keeps no other fax from being drawn.

The page is watched from below: what it sends to workers can be held back, and workers are counted."""

from __future__ import annotations

import base64
import os
import time
from typing import Callable, Generator

from tests import Claim
from tests.convert import files as parts_of
from tests.convert.files import put
from tests.web import faxes
from tests.web.browser import Browser
from tests.web.saying import PELS

# What is claimed of a page in a browser, by a program and in a room.
Part = Callable[[Browser, str, str], Generator[Claim, None, None]]
# So much patience has a claim that something comes; that it never comes is seen after this many seconds.
SOON = 20
WATCH = """(() => {
    while (app.fax) app.close();
    if (window.watched) return;
    window.watched = { hold: "", held: [], live: new Set(), made: 0, urls: new Set() };
    const { watched } = window;
    const [post, end, Real] = [Worker.prototype.postMessage, Worker.prototype.terminate, Worker];
    Worker.prototype.postMessage = function (...words) {
        if (words[0].call === watched.hold) watched.held.push(() => post.apply(this, words));
        else post.apply(this, words);
    };
    Worker.prototype.terminate = function () { watched.live.delete(this); end.call(this); };
    window.Worker = class extends Real {
        constructor(...words) { super(...words); watched.live.add(this); watched.made++; }
    };
    const [make, drop] = [URL.createObjectURL, URL.revokeObjectURL];
    URL.createObjectURL = (...it) => { const url = make.apply(URL, it); watched.urls.add(url); return url; };
    URL.revokeObjectURL = (url) => { watched.urls.delete(url); drop.call(URL, url); };
    watched.release = () => { watched.hold = ""; watched.held.splice(0).forEach((it) => it()); };
})()"""
# What the thumbnails are mostly: 0 black, 255 white, in order of the pages; none until all are drawn.
THUMBS = """(() => {
    const all = [...document.querySelectorAll("#thumbs-all canvas")];
    return all.length > 0 && all.every((it) => it.width > 1) && all.map((it) => {
        const { data } = it.getContext("2d").getImageData(0, 0, it.width, it.height);
        return data[4 * Math.floor(data.length / 8)] > 127 ? 255 : 0;
    });
})()"""
DRAWN = """app.fax && app.view.fax === app.fax && app.view.sheet.tiles.size > 0 &&
    [...app.view.sheet.tiles.values()].every((tile) => tile.dataset.drawn)"""
SAID = 'document.getElementById("saved").textContent'
VERDICT = 'document.getElementById("verdict").textContent'


def plain(program: str, byte: int, count: int = 3, rows: int = 40) -> bytes:
    """A fax of pages that are black or white."""
    return faxes.convert(program, (b"P4\n64 %d\n" % rows + bytes([byte]) * (8 * rows)) * count, "-o", "mmr")


def opened(browser: Browser, path: str) -> None:
    """Opens a file, and waits until it was read."""
    name = os.path.basename(path)
    browser.choose("#choose", path)
    browser.until(f'app.fax && app.fax.file.name === "{name}" && app.fax.state === "done"')


def close_all(browser: Browser) -> None:
    browser.run("while (app.fax) app.close()")


def thumbnails(browser: Browser, program: str, room: str) -> Generator[Claim, None, None]:
    """Thumbnails of one fax that come late are not shown under the next one."""
    browser.run(WATCH)
    black, white = (put(f"{room}/{name}.tif", plain(program, byte))
                    for name, byte in (("black", 255), ("white", 0)))
    for one, other, wanted in ((black, white, 255), (white, black, 0)):
        browser.run('watched.hold = "small"')
        opened(browser, one)
        browser.until("watched.held.length > 0")
        opened(browser, other)
        browser.until('document.getElementById("name").textContent === app.fax.file.name && app.thumbs.fax === app.fax')
        browser.run("watched.release()")
        yield f"thumbnails of {os.path.basename(other)}", browser.until(THUMBS), [wanted] * 3
        close_all(browser)


def results(browser: Browser, program: str, room: str) -> Generator[Claim, None, None]:
    """What is made of one fax is said under this one alone, also where another one is shown meanwhile."""
    browser.run(WATCH)
    one, other = (put(f"{room}/{name}.tif", plain(program, 255)) for name in ("one", "other"))
    opened(browser, one)
    opened(browser, other)
    browser.run("app.show(app.faxes[0])")
    browser.until(DRAWN)
    browser.run("""watched.hold = "save"; document.getElementById("save").elements.kind.value = "tiff1";
        document.querySelector("#save button").click()""")
    browser.until("watched.held.length === 1")
    browser.run("app.show(app.faxes[1])")
    browser.until(f"{DRAWN} && !document.getElementById('save').hidden")
    yield "one at a time", browser.run('document.getElementById("save-make").disabled'), True
    browser.run("watched.release()")
    browser.until('!document.getElementById("save-make").disabled')
    yield "nothing is said under the other", browser.run(SAID), ""
    browser.run("app.show(app.faxes[0])")
    browser.until(f'{SAID}.includes("one-mh.tif was made")')
    yield "the result stands under its own", browser.run(
        'document.querySelector("#saved a").download'), "one-mh.tif"
    yield from cancelled(browser)
    yield from addresses(browser)


def cancelled(browser: Browser) -> Generator[Claim, None, None]:
    """What is being made can be cancelled, and then another be made."""
    browser.run('watched.hold = "save"; document.querySelector("#save button").click()')
    browser.until('watched.held.length === 1 && !document.getElementById("save-cancel").hidden')
    browser.run('document.getElementById("save-cancel").click()')
    browser.until(f"{SAID}.includes('cancelled')")
    browser.run('watched.hold = ""; watched.held.length = 0; document.querySelector("#save button").click()')
    yield "after a cancel another is made", browser.until(f'{SAID}.includes("was made")'), True


def addresses(browser: Browser) -> Generator[Claim, None, None]:
    """Addresses of what was made are given back: by the next one, and where the fax is closed."""
    before = browser.run("watched.urls.size")
    for _ in range(3):
        browser.run('document.querySelector("#save button").click()')
        browser.until('app.fax.making.state === "ready"')
    yield "one address a fax", browser.run("watched.urls.size"), before
    close_all(browser)
    yield "none once all are closed", browser.run("watched.urls.size"), 0


def bare_again(browser: Browser, program: str, room: str) -> Generator[Claim, None, None]:
    """Bare data that are read again in another way have the new picture."""
    browser.run(WATCH)
    image = faxes.image("marks", 30)
    data = faxes.convert(program, image, "-o", "mmr")
    (strip,) = parts_of.strips_of(data, next(parts_of.directories_of(data)))
    turned = bytes(int(f"{byte:08b}"[::-1], 2) for byte in strip)
    opened(browser, put(f"{room}/bare.g4", turned))
    pels = faxes.pels_of_pbm(image)[0][2]
    for turn in range(3):
        for order, right in (("1", False), ("2", True)):
            browser.run(f"""(() => {{
                const form = document.getElementById("bare");
                Object.assign(form.elements.coding, {{ value: "3" }});
                Object.assign(form.elements.width, {{ value: "40" }});
                Object.assign(form.elements.rows, {{ value: "30" }});
                Object.assign(form.elements.order, {{ value: "{order}" }});
                form.querySelector("button").click();
            }})()""")
            browser.until("app.fax.state === 'done' && app.view.reading === app.fax.reading")
            if browser.run("app.fax.pages"):
                browser.run("app.view.setZoom(1)")
                browser.until(f"{DRAWN} && app.view.sheet.shrinking().join() === '1,1'")
                got = base64.b64decode(browser.run(PELS))
                yield f"turn {turn}: the picture by order {order}", got == pels, right
    close_all(browser)


def gone(browser: Browser, program: str, room: str) -> Generator[Claim, None, None]:
    """A file that is gone from the disk is said to be, and keeps no other one from being drawn."""
    browser.run(WATCH)
    names = [put(f"{room}/gone-{number}.tif", faxes.drawn(program, 900 + number)) for number in range(8)]
    browser.choose("#choose", *names)
    browser.until("app.faxes.length === 8 && app.faxes.every((fax) => fax.state === 'done')")
    browser.run("for (const fax of app.faxes.slice(1)) app.show(fax)")
    browser.until("app.faxes.filter((fax) => fax.life.worker).length <= 5")
    at = browser.run("app.faxes.findIndex((fax) => !fax.life.worker)")
    os.unlink(names[at])
    browser.run(f"app.show(app.faxes[{at}])")
    browser.until(f'{VERDICT}.includes("gone from its place")', SOON)
    yield "it is not called whole", browser.run('document.getElementById("verdict").className'), "left"
    yield "it can be tried again", browser.run('!document.getElementById("again").hidden'), True
    browser.run("app.show(app.faxes[app.faxes.length - 1])")
    browser.until(DRAWN, SOON)
    yield "another one is drawn", browser.run("app.view.fax === app.faxes[app.faxes.length - 1]"), True
    close_all(browser)
    yield "no worker is left", browser.run("watched.live.size"), 0


def crashes(browser: Browser, program: str, room: str) -> Generator[Claim, None, None]:
    """A worker that breaks down while nobody asks it is said, and so is one that is asked then."""
    browser.run(WATCH)
    names = [put(f"{room}/crash-{number}.tif", plain(program, 255)) for number in range(2)]
    browser.choose("#choose", *names)
    browser.until(f"app.faxes.length === 2 && app.faxes.every((fax) => fax.state === 'done') && {DRAWN}")
    browser.run("""app.fax.life.worker.dispatchEvent(
        new ErrorEvent("error", { message: "it broke", cancelable: true }))""")
    browser.until(f'{VERDICT}.includes("broke down: the browser does not say why.")', SOON)
    yield "it is not called whole any more", browser.run('document.getElementById("verdict").className'), "left"
    yield "a call ends with an error", browser.run(
        'app.fax.ask("small", { page: 0, most: 9 }).then(() => "answered", (error) => error.message)'), "it broke"
    browser.run("app.show(app.faxes[1])")
    browser.until(f"app.fax === app.faxes[1] && {DRAWN}", SOON)
    browser.run('app.show(app.faxes[0])')
    browser.until('!document.getElementById("again").hidden')
    browser.run('document.getElementById("again").click()')
    browser.until(f"app.fax.state === 'done' && app.fax.reading === 2 && {DRAWN}", SOON)
    browser.until('document.getElementById("verdict").className === "whole"')
    yield "read again it is whole", browser.run(VERDICT), "This fax is whole: 3 pages, 120 rows."
    close_all(browser)


def closing(browser: Browser, program: str, room: str) -> Generator[Claim, None, None]:
    """Files that are closed while they are drawn or read start no worker again."""
    browser.run(WATCH)
    for hold in ("part", "small", "open"):
        browser.run(f'watched.hold = "{hold}"')
        names = [put(f"{room}/closing-{number}.tif", plain(program, 255)) for number in range(6)]
        browser.choose("#choose", *names)
        browser.until("watched.held.length > 0")
        browser.run("while (app.fax) app.close()")
        browser.run("watched.release()")
        time.sleep(0.5)
        yield f"closed while {hold} is asked for: no worker", browser.run("watched.live.size"), 0


def rewritten(browser: Browser, program: str, room: str) -> Generator[Claim, None, None]:
    """A file that is written over on the disk is read anew, or said to be changed: it is never shown under the old
    words. Where its time and its length are the old ones, its bytes tell that it is another."""
    for keeps in (False, True):
        said = written_over(browser, program, room, keeps)
        wanted = "The file was changed on the disk, and was read again. This fax is whole: 2 pages, 60 rows."
        is_told = "gone from its place" in said or "was changed on the disk: open it again" in said
        yield f"it is read anew, or said to be changed: {said}", said == wanted or (is_told and not keeps), True
        if said == wanted:
            yield "its thumbnails are the new ones", browser.until(THUMBS), [255] * 2
            yield "of a page that is gone the last one is shown", browser.run(
                "[document.getElementById('page').value, app.view.page]"), ["2", 1]
        close_all(browser)


def written_over(browser: Browser, program: str, room: str, keeps: bool) -> str:
    """Writes over a file whose third page was looked at, and that has no worker; what is said once it is looked at."""
    browser.run(WATCH)
    old, new = plain(program, 255), plain(program, 0, count=2, rows=30)
    names = [put(f"{room}/again-{number}.tif", old) for number in range(8)]
    browser.choose("#choose", *names)
    browser.until("app.faxes.length === 8 && app.faxes.every((fax) => fax.state === 'done')")
    browser.run("for (const fax of app.faxes.slice(1)) { app.show(fax); app.goTo(2); }")
    browser.until("app.faxes.filter((fax) => fax.life.worker).length <= 5")
    at: int = browser.run("app.faxes.findIndex((fax) => !fax.life.worker && fax.at === 2)")
    before = os.stat(names[at]).st_mtime_ns
    put(names[at], new.ljust(len(old), b"\0") if keeps else new)
    os.utime(names[at], ns=(before, before) if keeps else (10 ** 18, 10 ** 18))
    browser.run(f"app.show(app.faxes[{at}])")
    browser.until(f'/was changed/.test({VERDICT}) && !app.fax.isBusy() && {VERDICT} === app.fax.verdict()', SOON)
    said: str = browser.run(VERDICT)
    return said


PARTS: list[Part] = [thumbnails, results, bare_again, gone, crashes, closing, rewritten]
