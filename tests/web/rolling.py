"""Long faxes: one bar scrolls over all pages, what comes next is drawn ahead, and pages in small stand in for what is
not drawn yet; also where all pages are higher than a browser lets an element be."""

from __future__ import annotations

import os
import statistics
from typing import Any, Generator

from tests import TOP, Claim
from tests.convert import pages
from tests.convert.files import get, put
from tests.web import faxes, missing
from tests.web.browser import Browser

PAGES = 60
WIDTH, HIGH = 1728, 1100
# Scrolls so many frames, each by so many points, and counts those in which a page in sight has neither a picture nor
# one that stands in for it.
FRAMES, STEP = 301, 60
EMPTY = f"""new Promise((resolve) => {{
    const {{ view }} = app.view;
    let [frames, empty, small] = [0, 0, 0];
    const step = () => {{
        const box = view.getBoundingClientRect();
        const bare = [...app.view.sheets.values()].filter(({{ paper, tiles }}) => {{
            const {{ top, bottom }} = paper.getBoundingClientRect();
            const isDrawn = tiles.size > 0 && [...tiles.values()].every((it) => it.dataset.drawn);
            return bottom > box.top + 1 && top < box.bottom - 1 && !isDrawn;
        }});
        const inSight = [...document.querySelectorAll(".sheet")].some((it) => {{
            const {{ top, bottom }} = it.getBoundingClientRect();
            return bottom > box.top && top < box.bottom;
        }});
        empty += !inSight || bare.some((sheet) => !sheet.small) ? 1 : 0;
        small += bare.length > 0 ? 1 : 0;
        if (++frames === {FRAMES}) {{
            resolve([frames, empty, small, app.page]);
        }} else {{
            view.scrollBy(0, {STEP});
            requestAnimationFrame(step);
        }}
    }};
    requestAnimationFrame(step);
}})"""
# Waits until what was scrolled is painted, and the bar stands right.
RESTS = "new Promise((resolve) => requestAnimationFrame(() => setTimeout(resolve, Roll.REST + 100)))"
PLACE = """(() => {
    const { view, roll, page } = app.view;
    return [app.page, Math.round(roll.top - roll.topOf(page)), Math.round(view.scrollTop)];
})()"""


def opened(browser: Browser, path: str, zoom: str) -> None:
    browser.run("while (app.fax) app.close()")
    browser.choose("#choose", path)
    browser.until("app.fax && app.fax.state === 'done' && app.view.form !== null")
    browser.run(f"document.activeElement.blur(); app.view.setZoom('{zoom}'); app.goTo(0)")


def long(program: str, room: str) -> str:
    """A fax of many pages, each with marks of its own kind."""
    images = [missing.lines(seed, HIGH) for seed in range(3)]
    return put(f"{room}/long.tif", faxes.convert(program, b"".join(images) * (PAGES // 3), "-o", "mmr"))


def one_bar(browser: Browser, program: str, room: str) -> Generator[Claim, None, None]:
    """The bar is as long as all pages are, and stands where the page is; no page jumps as others are drawn."""
    path = long(program, room)
    for zoom in ("whole", "wide"):
        opened(browser, path, zoom)
        high = browser.run("app.view.roll.heightOf(0)")
        yield f"{zoom}: the bar is of all pages", browser.run("app.view.view.scrollHeight"), PAGES * (high + 8) + 8
        for part, page in ((0, 0), (1, PAGES - 1), (0.5, PAGES // 2)):
            browser.run(f"""app.view.view.scrollTop = {part} * (app.view.view.scrollHeight
                - app.view.view.clientHeight); {RESTS}""")
            yield f"{zoom}: at {part} of the bar", abs(browser.run("app.page") - page) <= 1, True
            browser.until("""!app.view.isWaiting && app.view.sheet?.tiles.size > 0 &&
                [...app.view.sheet.tiles.values()].every((tile) => tile.dataset.drawn)""")
        for page in (0, 31, PAGES - 1, 7):
            browser.run(f"app.goTo({page}); {RESTS}")
            at = browser.run(f"app.view.view.scrollTop - {page} * ({high} + 8)")
            yield f"{zoom}: page {page} is gone to", (
                browser.run("app.page"), at == 0 or page == PAGES - 1), (page, True)
        yield f"{zoom}: few pages stand there", browser.run("document.querySelectorAll('.sheet').length") <= 6, True


def no_empty_frames(browser: Browser, program: str, room: str) -> Generator[Claim, None, None]:
    """Scrolled by sixty points a frame, each page in sight has a picture, or one that stands in for it; what stands in
    is the page."""
    path = long(program, room)
    for zoom in ("whole", "wide"):
        opened(browser, path, zoom)
        browser.until("app.view.smalls.kept.size > View.AFTER")
        frames, empty, small, page = browser.run(EMPTY)
        print(f"({type(browser).__name__}, {zoom}: {frames} frames to page {page + 1}, {small} of them in small)")
        yield f"{zoom}: no frame is empty", empty, 0
        yield f"{zoom}: many pages were scrolled past", page > 10, True
    browser.until("!app.view.isWaiting && [...app.view.sheets.values()].every((sheet) => sheet.small)")
    yield "what stands in is the page in small", browser.run("""[...app.view.sheets.values()].map(({ small, page }) => {
        const { data } = small.getContext("2d").getImageData(0, 0, small.width, small.height);
        return new Uint32Array(data.buffer).join() === app.view.smalls.kept.get(page).pels.join();
    }).every(Boolean)"""), True
    yield "it lies below what is drawn", browser.run("""[...app.view.sheets.values()].every(
        ({ small, paper }) => paper.firstChild === small)"""), True


def ahead(browser: Browser, program: str, room: str) -> Generator[Claim, None, None]:
    """The next page is drawn before it is in sight."""
    opened(browser, long(program, room), "wide")
    browser.until("""(() => {
        const next = app.view.sheets.get(1);
        return next && next.tiles.size > 0 && [...next.tiles.values()].every((tile) => tile.dataset.drawn);
    })()""")
    yield "the next page is drawn out of sight", browser.run("app.page"), 0
    browser.run("app.goTo(20)")
    browser.until("""[19, 20, 21].every((page) => {
        const tiles = [...app.view.sheets.get(page)?.tiles.values() ?? []];
        return tiles.length > 0 && tiles.every((tile) => tile.dataset.drawn);
    })""")
    yield "and after a jump so are those around it", browser.run("app.page"), 20


def short_bar(browser: Browser, program: str, room: str) -> Generator[Claim, None, None]:
    """Where all pages are higher than an element may be, small steps scroll as far as ever, page after page, and the
    bar leads to each part."""
    opened(browser, long(program, room), "wide")
    browser.run("window.most = Roll.MOST; Roll.MOST = 9000; app.view.lay(); app.goTo(0)")
    yield "the bar is shorter than the pages", browser.run(
        "[app.view.view.scrollHeight, app.view.roll.total > 30000]"), [9000, True]
    for part, page in ((1, PAGES - 1), (0, 0), (0.5, PAGES // 2)):
        browser.run(f"app.view.view.scrollTop = {part} * (9000 - app.view.view.clientHeight); {RESTS}")
        yield f"at {part} of the bar", abs(browser.run("app.page") - page) <= 1, True
    browser.run(f"app.goTo(30); {RESTS}")
    yield "a page that is gone to begins at the top", browser.run(PLACE)[:2], [30, -8]
    met, moved = [30], []
    for _ in range(40):
        before = browser.run("app.view.roll.top")
        browser.run("""app.view.view.scrollBy(0, 90); new Promise((resolve) =>
            requestAnimationFrame(() => requestAnimationFrame(resolve)))""")
        moved.append(round(browser.run("app.view.roll.top") - before))
        page = browser.run("app.page")
        met += [page] * (page != met[-1])
    yield "a step is a step", moved, [90] * 40
    yield "pages are met in their order", met, list(range(30, 30 + len(met)))
    place = browser.run("app.view.roll.top")
    browser.run(RESTS)
    yield "the bar comes right, and nothing moves", browser.run(f"""(() => {{
        const {{ view, roll }} = app.view;
        const [most, bar] = roll.most;
        return [Math.abs(roll.top - {place}) <= 1, Math.abs(view.scrollTop - (roll.top / most) * bar) <= 1];
    }})()"""), [True, True]
    for page in (PAGES - 1, 0):
        browser.run(f"app.goTo({page}); {RESTS}")
        yield f"page {page}", browser.run("app.page"), page
    browser.run("Roll.MOST = window.most; app.view.lay(); while (app.fax) app.close()")


def unreadable(browser: Browser, program: str, room: str) -> Generator[Claim, None, None]:
    """A page that cannot be read has its place among the others, and says so there; one can scroll past it."""
    image = pages.image(800, [(1 << 800) - 1 if row % 50 < 9 else 0 for row in range(900)])
    data = bytearray(get(put(f"{room}/refused.tif", faxes.convert(program, image * 3, "-o", "mmr"))))
    place = list(missing.places(bytes(data)))[1]
    missing_field = data.index(b"\x03\x01\x03\0", place)
    data[missing_field + 8] = 5
    opened(browser, put(f"{room}/refused.tif", bytes(data)), "wide")
    yield "one page is refused", browser.run("[...app.fax.refused.keys()]"), [1]
    met = [0]
    for _ in range(60):
        browser.run("app.view.view.scrollBy(0, 60); new Promise((resolve) => requestAnimationFrame(resolve))")
        page = browser.run("app.page")
        met += [page] * (page != met[-1])
    yield "it is scrolled past", met in ([0, 1, 2], [0, 2]), True
    browser.run(f"app.goTo(1); {RESTS}")
    yield "it says so", browser.run("""(() => {
        const it = document.querySelector(".sheet.current");
        return [it.textContent, it.checkVisibility(), it.getAttribute("aria-hidden")];
    })()"""), ["Page 2 of 3: no fax page", True, "false"]
    browser.run("app.view.setZoom('whole'); while (app.fax) app.close()")


def resized(browser: Browser, program: str, room: str) -> Generator[Claim, None, None]:
    """A page that begins at the top of the view does so too once the window has another size, as on a phone that is
    turned; one that was scrolled stays where it is."""
    path = long(program, room)
    for zoom in ("whole", "wide"):
        opened(browser, path, zoom)
        browser.run(f"app.goTo(5); {RESTS}")
        for size in ((390, 844), (844, 390), (1280, 900)):
            browser.resize(*size)
            browser.run(RESTS)
            yield f"{zoom}, {size}: the page begins at the top", browser.run(PLACE)[:2], [5, -8]
    browser.run(f"app.view.view.scrollBy(0, 300); {RESTS}")
    browser.resize(1000, 700)
    browser.run(RESTS)
    yield "a page that was scrolled is not at its top", browser.run(PLACE)[:2] != [5, -8], True
    browser.resize(1280, 900)
    browser.run("app.view.setZoom('whole'); while (app.fax) app.close()")


# How many frames are scrolled in the first second, and in how many of them a page may lack its picture.
FIRST_FRAMES, FIRST_EMPTY = 61, 6
# How often each of three faxes is opened, and in how many milliseconds its first page stands.
TIMES, SOON = 3, 300


def hundreds(program: str, room: str) -> str:
    """A fax of hundreds of pages, of which each fifth was hit by noise."""
    images = [missing.lines(seed, HIGH // 2) for seed in range(3)]
    data = bytearray(faxes.convert(program, b"".join(images) * 100, "-o", "mmr"))
    for place, size in missing.strips(bytes(data))[::5]:
        data[place + size // 2] ^= 0x40
    return put(f"{room}/hundreds.tif", bytes(data))


def laid_out_once(browser: Browser, program: str, room: str) -> Generator[Claim, None, None]:
    """The first page is laid out beside the list of pages from the beginning: each part of it is asked for once."""
    path = long(program, room)
    browser.run("""window.ask = Fax.prototype.ask;
        Fax.prototype.ask = function (call, words, tell) {
            window.asked.push(...(call === "part" && words.page === 0 ? [`${words.x} ${words.y}`] : []));
            return window.ask.call(this, call, words, tell);
        }""")
    for zoom in ("wide", "whole"):
        browser.run(f"while (app.fax) app.close(); app.view.zoom = '{zoom}'; window.asked = []")
        browser.choose("#choose", path)
        browser.until("app.fax && app.fax.state === 'done' && app.view.hasDrawn && !app.view.isWaiting")
        yield f"{zoom}: what is asked for", browser.run("window.asked.sort().join()"), "0 0,0 1024"
    browser.run("Fax.prototype.ask = window.ask; while (app.fax) app.close()")


def load_now() -> float:
    """How many programs want each processor, here and now."""
    with open("/proc/loadavg", encoding="ascii") as told:
        return int(told.read().split()[3].split("/")[0]) / (os.cpu_count() or 1)


def first_second(browser: Browser, program: str, room: str) -> Generator[Claim, None, None]:
    """The first page stands in 0.3 seconds, the least of some times, and what is scrolled to right then is there, in
    small at least. What other programs want of the processors counts, so their load is said."""
    browser.run("""document.getElementById("choose").addEventListener("change", () => {
        const began = performance.now();
        window.stood = 0;
        const look = () => {
            const { sheet, fax, hasDrawn } = app.view;
            const stands = fax === app.fax && fax && hasDrawn && sheet && sheet.tiles.size > 0 &&
                [...sheet.tiles.values()].every((tile) => tile.dataset.drawn);
            window.stood = stands ? performance.now() - began : 0;
            if (!stands) requestAnimationFrame(look);
        };
        requestAnimationFrame(look);
    }, true)""")
    paths = [long(program, room), hundreds(program, room), f"{TOP}/samples/received/over-a-noisy-line.tif"]
    stood, empty, loads = {path: list[float]() for path in paths}, list[int](), list[float]()
    for path in paths * TIMES:
        browser.run("while (app.fax) app.close(); app.view.zoom = 'wide'")
        loads.append(load_now())
        browser.choose("#choose", path)
        stood[path].append(browser.until("window.stood"))
        if path == paths[0]:
            empty.append(browser.run(EMPTY.replace(f"=== {FRAMES}", f"=== {FIRST_FRAMES}"))[1])
    load = statistics.mean(loads)
    for path, times in stood.items():
        print(f"({type(browser).__name__}: the first page of {os.path.basename(path)} stood in {min(times):.0f} to "
              f"{max(times):.0f} ms, mostly {statistics.median(times):.0f}; load of a processor {load:.1f})")
        yield f"the first page stands soon, of {times}", min(times) < SOON * max(1.0, load), True
    print(f"({type(browser).__name__}: of {FIRST_FRAMES} frames {empty} were empty)")
    yield f"the first second has few empty frames, of {empty}", min(empty) <= FIRST_EMPTY * max(1.0, load / 2), True
    browser.run("app.view.setZoom('whole'); while (app.fax) app.close()")


PARTS: list[Any] = [first_second, laid_out_once, resized, one_bar, no_empty_frames, ahead, short_bar, unreadable]
