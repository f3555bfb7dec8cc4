"""Moving among pages and files by hands: scrolling from page to page, dragging, zooming by the wheel and by two
fingers, keys, the whole screen, folders, pasting and copying."""

from __future__ import annotations

import json
import os
import shutil
from typing import Generator

from tests import Claim
from tests.convert import pages
from tests.convert.files import get, put
from tests.web import faxes
from tests.web.browser import Browser
from tests.web.chromium import Chromium

PAGES = 4
WIDE, HIGH = 800, 900
AT = "[app.page, Number(document.getElementById('page').value), document.querySelectorAll('.current').length]"
TOP = "app.view.sheet.element.getBoundingClientRect().top"
# Where each page begins on the screen.
TOPS = """Object.fromEntries([...app.view.sheets.values()].map(
    (it) => [it.page, it.element.getBoundingClientRect().top]))"""
# Waits until what was scrolled is painted and said.
PAINTED = "new Promise((resolve) => requestAnimationFrame(() => setTimeout(resolve, 100)))"


def opened(browser: Browser, program: str, room: str) -> str:
    """Opens a fax of some pages, as wide as the screen."""
    browser.run("while (app.fax) app.close()")
    rows = [(1 << WIDE) - 1 if row % 50 < 9 else 0 for row in range(HIGH)]
    path = put(f"{room}/pages.tif", faxes.convert(program, pages.image(WIDE, rows) * PAGES, "-o", "mmr"))
    browser.choose("#choose", path)
    browser.until("app.fax && app.fax.state === 'done' && app.view.form !== null")
    browser.run("document.activeElement.blur(); app.view.setZoom('wide')")
    return path


def scrolling(browser: Browser, program: str, room: str) -> Generator[Claim, None, None]:
    """Pages stand below each other: scrolled through, each is met in its order, and nothing jumps."""
    opened(browser, program, room)
    met, jumps = [0], []
    for _ in range(200):
        before = browser.run(TOPS)
        browser.run(f"app.view.view.scrollBy(0, 60); {PAINTED}")
        after, page, is_end = browser.run(f"[{TOPS}, app.page, app.view.view.scrollTop + app.view.view.clientHeight >= "
                                          "app.view.view.scrollHeight - 1]")
        moved = [before[it] - top for it, top in after.items() if it in before]
        jumps += [moved] * (not is_end and (not moved or any(abs(it - 60) > 1 for it in moved)))
        met += [page] * (page != met[-1])
        if is_end and page == PAGES - 1:
            break
    yield "each page is met", met, list(range(PAGES))
    yield "nothing jumps", jumps, []
    yield "the number of the page says so", browser.run(AT), [PAGES - 1, PAGES, 1]
    browser.until("""!app.view.isWaiting && [...app.view.sheets.values()].every(
        (sheet) => [...sheet.tiles.values()].every((tile) => tile.dataset.drawn))""")
    yield "few pages stand there", browser.run("app.view.sheets.size") <= 3, True
    browser.run("app.goTo(1)")
    yield "a page that is gone to begins at the top", browser.run(
        f"Math.round({TOP} - app.view.view.getBoundingClientRect().top)"), 8
    yield "it stands between two", browser.run("""[...document.querySelectorAll('.sheet')].map((it) => it.className)
        .slice(0, 3)"""), ["sheet", "sheet current", "sheet"]


def keys(browser: Browser, program: str, room: str) -> Generator[Claim, None, None]:
    """Keys scroll, wherever the focus is, and lead on to the next page."""
    opened(browser, program, room)
    top = "Math.round(app.view.view.scrollTop)"
    for key, number, sign in (("ArrowDown", 40, 1), ("PageDown", 34, 1), ("PageUp", 33, -1), ("ArrowUp", 38, -1)):
        before = browser.run(top)
        browser.press(key, number=number)
        browser.run(PAINTED)
        after = browser.run(top)
        yield f"{key}: it scrolls", (after - before) * sign > 0, True
    for _ in range(12):
        browser.press("PageDown", number=34)
    browser.until(f"document.getElementById('page').value === '{PAGES}'")
    yield "PageDown leads to the last page", browser.run(AT), [PAGES - 1, PAGES, 1]


def mouse(browser: Browser, program: str, room: str) -> Generator[Claim, None, None]:
    """The mouse drags the page; with Ctrl the wheel zooms, and two fingers do, at their place."""
    opened(browser, program, room)
    browser.run("app.view.zoomBy(3); app.view.toTop()")
    browser.run(PAINTED)
    before = browser.run("[app.view.view.scrollLeft, app.view.view.scrollTop]")
    browser.drag(900, 600, 700, 350)
    yield "it is dragged", browser.run("[app.view.view.scrollLeft, app.view.view.scrollTop]"), [
        before[0] + 200, before[1] + 250]
    yield "and let go", browser.run("[app.hands.held.size, app.view.view.className]"), [0, ""]
    place = """(() => {
        const box = app.view.sheet.element.getBoundingClientRect();
        return [(900 - box.left) / box.width, (500 - box.top) / box.height].map((it) => Math.round(200 * it));
    })()"""
    under, scale = browser.run(f"[{place}, app.view.scale]")
    browser.run("""app.view.view.dispatchEvent(new WheelEvent("wheel", { ctrlKey: true, deltaY: -200, clientX: 900,
        clientY: 500, cancelable: true }))""")
    yield "the wheel zooms", round(browser.run("app.view.scale") / scale, 2), 1.56
    yield "at its place", browser.run(place), under
    browser.run("""(() => {
        const send = (type, id, x, y) => app.view.view.dispatchEvent(new PointerEvent(type, { pointerId: id, clientX: x,
            clientY: y, pointerType: "touch" }));
        send("pointerdown", 11, 850, 500); send("pointerdown", 12, 950, 500);
        send("pointermove", 11, 875, 500); send("pointermove", 12, 925, 500);
        send("pointerup", 11, 875, 500); send("pointerup", 12, 925, 500);
    })()""")
    yield "two fingers zoom", round(browser.run("app.view.scale") / scale, 2), 0.78


def many(browser: Browser, program: str, room: str) -> Generator[Claim, None, None]:
    """The next damaged file among many."""
    browser.run("while (app.fax) app.close()")
    paths = [put(f"{room}/whole-{number}.tif", faxes.drawn(program, 60 + number)) for number in range(3)]
    damaged = faxes.damaged(program, room)[:2]
    browser.choose("#choose", paths[0], damaged[0], paths[1], damaged[1], paths[2])
    browser.until("app.faxes.length === 5 && app.faxes.every((fax) => fax.state === 'done')")
    browser.run("document.activeElement.blur()")
    for at in (1, 3, 1):
        browser.press("d")
        yield "d: the next damaged file", browser.run("app.faxes.indexOf(app.fax)"), at
    yield "it is said", browser.run('document.getElementById("said").textContent.includes("missing")'), True
    browser.run("document.getElementById('damaged').click()")
    yield "the button does the same", browser.run("app.faxes.indexOf(app.fax)"), 3
    browser.run("while (app.fax) app.close()")


def pasted(browser: Browser, _program: str, _room: str) -> Generator[Claim, None, None]:
    """Files that are pasted are opened."""
    browser.run("""(() => {
        const event = new ClipboardEvent("paste", { clipboardData: new DataTransfer() });
        event.clipboardData.items.add(new File(["no fax"], "pasted.txt"));
        document.dispatchEvent(event);
    })()""")
    yield "what is pasted is opened", browser.run("app.faxes.map((fax) => fax.file.name)"), ["pasted.txt"]
    browser.run("while (app.fax) app.close()")


def dropped(browser: Browser, program: str, room: str) -> Generator[Claim, None, None]:
    """Files that are dropped are opened, and the page shows where they may be while they are above it."""
    paths = [put(f"{room}/dropped-{number}.tif", faxes.drawn(program, 80 + number)) for number in range(2)]
    browser.run("""window.looks = [];
        new MutationObserver(() => looks.push(document.body.classList.contains("dropping"))).observe(
            document.body, { attributeFilter: ["class"] })""")
    browser.drop(*paths)
    browser.until("app.faxes.length === 2 && app.faxes.every((fax) => fax.state === 'done')")
    yield "what is dropped is opened", browser.run("app.faxes.map((fax) => fax.file.name)"), [
        "dropped-0.tif", "dropped-1.tif"]
    yield "the page looks so, and no more", browser.run("[looks.length > 0, looks.at(-1)]"), [True, False]
    browser.run("while (app.fax) app.close()")


def folders(browser: Browser, program: str, room: str) -> Generator[Claim, None, None]:
    """Of a folder, with all below it, what is called as faxes are is opened, by name."""
    os.makedirs(f"{room}/folder/below/more")
    for name in ("fax-10.tif", "fax-9.tif", "notes.txt", "below/fax-2.TIF", "below/more/fax-1.tiff"):
        put(f"{room}/folder/{name}", faxes.drawn(program, 70))
    wanted = ["fax-1.tiff", "fax-2.TIF", "fax-9.tif", "fax-10.tif"]
    for how in ("chosen", "dropped"):
        if how == "dropped":
            browser.drop_folder(f"{room}/folder")
        else:
            browser.choose_folder("#folder", f"{room}/folder")
        browser.until("app.faxes.length > 0 && app.faxes.every((fax) => fax.state === 'done')")
        yield f"a folder that is {how}", browser.run("app.faxes.map((fax) => fax.file.name)"), wanted
        browser.run("while (app.fax) app.close()")
    shutil.rmtree(f"{room}/folder")


def no_folder(browser: Chromium, program: str, room: str) -> Generator[Claim, None, None]:
    """Where the page is of the disk, the browser hands out no folder that is dropped: it says what to do."""
    os.makedirs(f"{room}/folder")
    put(f"{room}/folder/fax.tif", faxes.drawn(program, 70))
    browser.drop(f"{room}/folder")
    said = 'document.getElementById("refused").textContent'
    browser.until(said)
    yield "it is said", browser.run(said), (
        "The browser hands out no folder that is dropped here: choose it by Open a folder…")
    browser.choose("#folder", f"{room}/folder")
    browser.until("app.fax && app.fax.state === 'done'")
    yield "what is chosen then is opened", browser.run(f"[app.fax.file.name, {said}]"), ["fax.tif", ""]
    browser.run("while (app.fax) app.close()")


def copying(browser: Browser, program: str, room: str) -> Generator[Claim, None, None]:
    """The page is copied as a picture, row by row as it is."""
    data = get(opened(browser, program, room))
    browser.to_front()
    browser.press("c")
    browser.until('document.getElementById("said").textContent.startsWith("Page 1 was")')
    yield "it is said", browser.run('document.getElementById("said").textContent'), "Page 1 was copied as a picture."
    wanted = faxes.pels_of_pbm(faxes.convert(program, data, "-o", "pbm"))[0]
    yield "it is the page", browser.copied() == wanted, True
    browser.run("while (app.fax) app.close()")


def filling(browser: Browser, program: str, room: str) -> Generator[Claim, None, None]:
    """The page fills the screen, by its key and by its button."""
    opened(browser, program, room)
    browser.to_front()
    for how in ("key", "button"):
        for wanted in ("view-part", None):
            if how == "key":
                browser.press("s")
            else:
                browser.click("#full")
            browser.until(f"document.fullscreenElement?.id === {json.dumps(wanted)}" if wanted
                          else "!document.fullscreenElement")
            yield f"{how}: what fills the screen", browser.run("document.fullscreenElement?.id ?? null"), wanted
    browser.run("while (app.fax) app.close()")
