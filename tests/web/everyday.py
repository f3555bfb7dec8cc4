"""What a clerk does all day: pages and files are gone through by keys and by fingers, what belongs to one page stays
with it, and many files are one list."""

from __future__ import annotations

import os
from typing import Any, Generator

from tests import TOP, Claim
from tests.convert import pages
from tests.convert.files import put
from tests.web import faxes, missing
from tests.web.browser import Browser

SAMPLE = f"{TOP}/samples/three-pages.tif"
READ = "app.faxes.length === {} && app.faxes.every((fax) => !fax.isBusy()) && !app.isDue"
KEYS = {"PageDown": 34, "PageUp": 33, "ArrowLeft": 37, "ArrowRight": 39}


def opened(browser: Browser, *files: str) -> None:
    """Opens files, and waits until all are read."""
    browser.run("while (app.fax) app.close()")
    browser.choose("#choose", *files)
    browser.until(READ.format(len(files)))
    browser.run("document.activeElement.blur()")


def of_its_page(browser: Browser, program: str, room: str) -> Generator[Claim, None, None]:
    """Turning turns one page; `f` goes through the file that is shown, from its beginning."""
    names = [put(f"{room}/of-{seed}.tif", missing.noisy(program, seed, [200, 200, 200], hits))
             for seed, hits in ((31, [0, 2, 3]), (32, [0, 0, 2]))]
    opened(browser, *names)
    browser.run("app.goTo(1)")
    browser.press("r")
    yield "one page is turned", browser.run("[0, 1, 2].map((page) => app.fax.turnsOf(page))"), [0, 1, 0]
    yield "and no other file's", browser.run("[0, 1, 2].map((page) => app.faxes[1].turnsOf(page))"), [0, 0, 0]
    yield "as it is seen", browser.run("""[...app.view.sheets.values()].map(
        ({ element }) => element.offsetWidth > element.offsetHeight).sort()"""), [False, True, True]
    browser.run("app.goTo(0)")
    browser.press("f")
    first = browser.run("[app.page, app.fax.last.row]")
    browser.press("f")
    yield "f goes on", browser.run("[app.page, app.fax.last.row]") > first, True
    browser.run("app.show(app.faxes[1])")
    browser.press("f")
    yield "f begins in the next file", browser.run(
        "[app.page, app.fax.last.row === app.fax.findings(9).found[0].row]"), [2, True]
    browser.run("app.show(app.faxes[0])")
    yield "the page that was looked at comes back", browser.run("app.page"), 1
    browser.run("while (app.fax) app.close()")


def turned_pages(browser: Browser, program: str, room: str) -> Generator[Claim, None, None]:
    """Where the whole page is shown, keys turn pages; a number that is none is set right; fingers swipe."""
    image = pages.image(800, [(1 << 800) - 1 if row % 50 < 9 else 0 for row in range(900)])
    opened(browser, put(f"{room}/turned.tif", faxes.convert(program, image * 3, "-o", "mmr")))
    browser.run("app.view.setZoom('whole')")
    for key, page in (("PageDown", 1), ("PageDown", 2), ("PageUp", 1), ("ArrowRight", 2), ("ArrowLeft", 1), (" ", 2)):
        browser.press(key, number=KEYS.get(key, 32))
        yield f"{key}: the page", browser.run("app.page"), page
    for text, page in (("99", 2), ("0", 0), ("2", 1), ("", 1)):
        browser.run(f"""(() => {{
            const field = document.getElementById("page");
            field.focus();
            field.value = "{text}";
            field.dispatchEvent(new Event("change"));
        }})()""")
        yield f"{text!r} of 3", browser.run('[app.page, document.getElementById("page").value]'), [page, str(page + 1)]
    browser.run("document.activeElement.blur(); app.goTo(0)")
    for moves, page in (((300, 300, 100, 310), 1), ((300, 300, 120, 290), 2), ((100, 300, 300, 300), 1),
                        ((300, 300, 280, 300), 1), ((300, 100, 200, 500), 1)):
        swiped(browser, *moves)
        yield f"a finger from {moves[:2]} to {moves[2:]}", browser.run("app.page"), page
    browser.run("app.view.setZoom(4)")
    browser.run("app.view.view.scrollLeft = 0")
    browser.press("ArrowRight", number=39)
    yield "a page that is wider is scrolled", browser.run("[app.page, app.view.view.scrollLeft > 0]"), [1, True]
    browser.run("app.view.setZoom('whole'); while (app.fax) app.close()")


def swiped(browser: Browser, x: int, y: int, to_x: int, to_y: int) -> None:
    """A finger goes across the page; both browsers are sent the events that a screen for fingers makes."""
    browser.run(f"""(() => {{
        const send = (type, lists) => app.view.view.dispatchEvent(Object.assign(new Event(type), lists));
        const [one, other] = [{{ clientX: {x}, clientY: {y} }}, {{ clientX: {to_x}, clientY: {to_y} }}];
        send("touchstart", {{ touches: [one], changedTouches: [one] }});
        send("touchend", {{ touches: [], changedTouches: [other] }});
    }})()""")


def many(browser: Browser, program: str, room: str) -> Generator[Claim, None, None]:
    """Three hundred files are a list with a count and a filter; the chosen one is in sight; all are closed at once."""
    names = [put(f"{room}/fax-{number:03}.tif", missing.noisy(program, 2, [60], [number % 3 * 2]))
             for number in range(299)]
    # Files of the same name, size and time are told apart by what they hold.
    opened(browser, *names, SAMPLE)
    looks = browser.run("app.faxes.map(Files.lookOf)")
    counts = {look: looks.count(look) for look in ("whole", "slight", "damaged")}
    words = {"whole": "whole", "slight": "readable with missing rows", "damaged": "with much missing"}
    wanted = "; ".join(f"{count} {words[look]}" for look, count in counts.items() if count)
    yield "they are counted", browser.run(
        'document.getElementById("files-count").textContent'), f"300 files: {wanted}"
    browser.run("app.show(app.faxes[290])")
    yield "the chosen one is in sight", browser.run("""(() => {
        const [list, chosen] = [document.getElementById("files-list"), document.querySelector(
            "#files-list [aria-pressed=true]")].map((it) => it.getBoundingClientRect());
        return chosen.top >= list.top - 1 && chosen.bottom <= list.bottom + 1;
    })()"""), True
    shown = """[...document.querySelectorAll("#files-list button")].filter((it) => it.checkVisibility()).length"""
    tried = [("", "whole", counts["whole"]), ("FAX-00", "", 10), ("three", "damaged", 1), ("", "", 300)]
    for name, look, count in tried:
        browser.run(f"""for (const [id, value] of [["filter", "{name}"], ["filter-look", "{look}"]]) {{
            document.getElementById(id).value = value;
            document.getElementById(id).dispatchEvent(new Event("input"));
        }}""")
        yield f"those that are called {name!r} and look {look!r}", browser.run(shown), count
    browser.run('document.getElementById("close-all").click()')
    yield "all are closed", browser.run('[app.faxes.length, document.getElementById("fax").hidden]'), [0, True]


def once(browser: Browser, program: str, room: str) -> Generator[Claim, None, None]:
    """A file that is opened again is shown, and stands in the list once; another one of its name is another one."""
    os.makedirs(f"{room}/other", exist_ok=True)
    one, same, other = (put(f"{room}/{name}", faxes.drawn(program, seed))
                        for name, seed in (("once.tif", 900), ("copy.tif", 900), ("other/once.tif", 901)))
    opened(browser, one, same)
    browser.run("app.goTo(1)")
    browser.choose("#choose", one)
    browser.until("app.faxes.length === 2 && app.fax === app.faxes[0] && !app.isDue")
    yield "the same file", browser.run("app.faxes.map((fax) => fax.file.name)"), ["once.tif", "copy.tif"]
    browser.choose("#choose", other)
    browser.until(READ.format(3))
    yield "another one of the same name", browser.run("app.faxes.map((fax) => fax.file.name)"), [
        "once.tif", "copy.tif", "once.tif"]
    put(one, faxes.drawn(program, 902))
    browser.choose("#choose", one)
    browser.until(READ.format(4))
    yield "one that was written over is another one", browser.run("app.faxes.length"), 4
    # Nothing but the bytes differs: they are looked at.
    stamps = os.stat(other)
    data = bytearray(faxes.drawn(program, 901))
    data[-1] ^= 1
    put(other, bytes(data))
    os.utime(other, ns=(stamps.st_atime_ns, stamps.st_mtime_ns))
    browser.choose("#choose", other)
    browser.until(READ.format(5))
    yield "also with the same length and time", browser.run("app.faxes.length"), 5
    browser.run('document.getElementById("close-all").click()')


def saved(browser: Browser, program: str, room: str) -> Generator[Claim, None, None]:
    """All files are saved as PDF by one button, and it is said how many were."""
    names = [put(f"{room}/saved-{number}.tif", faxes.drawn(program, 700 + number)) for number in range(3)]
    opened(browser, *names, put(f"{room}/letter.txt", b"Dear all,\n"))
    browser.run("""window.links = []; HTMLAnchorElement.prototype.click = function () { links.push(this.download); };
        document.getElementById("save-all").click()""")
    browser.until('document.getElementById("all-said").textContent === "3 of 3 files were saved as PDF."')
    yield "all were saved", browser.run("links"), [f"saved-{number}.pdf" for number in range(3)]
    browser.run("delete HTMLAnchorElement.prototype.click; document.getElementById('close-all').click()")


def noticed(browser: Browser, program: str, room: str) -> Generator[Claim, None, None]:
    """What was done is seen, and not only read aloud."""
    opened(browser, SAMPLE)
    browser.run("""window.ClipboardItem = class { constructor(parts) { this.parts = parts; } };
        Object.defineProperty(navigator, "clipboard", { configurable: true,
            value: { write: async ([item]) => { await item.parts["image/png"]; } } });
        app.copy()""")
    yield "it is seen", browser.run('[document.getElementById("seen").checkVisibility(), '
                                    'document.getElementById("seen").textContent, '
                                    'document.getElementById("said").textContent]'), [
        True, "Page 1 was copied as a picture.", "Page 1 was copied as a picture."]
    browser.run("document.getElementById('close-all').click()")


def kept(browser: Browser, program: str, room: str) -> Generator[Claim, None, None]:
    """What is open comes back after a reload, at its page; what was closed does not, nor anything where that is off."""
    names = [put(f"{room}/kept-{number}.tif", faxes.drawn(program, 730 + number)) for number in range(3)]
    opened(browser, *names)
    address = browser.run("location.href")
    browser.until("app.keeping.sizes.size === 3")
    browser.run("app.show(app.faxes[0]); app.close(); app.show(app.faxes[1]); app.goTo(2)")
    browser.run("app.keeping.last.then(() => 1)")
    os.remove(names[1])
    browser.go(address)
    browser.until(READ.format(2))
    yield "they come back, though one is gone from the disk", browser.run(
        "[app.faxes.map((fax) => fax.file.name), app.fax.file.name, app.page]"), [
            ["kept-1.tif", "kept-2.tif"], "kept-2.tif", 2]
    yield "as they were", browser.run("app.faxes.map((fax) => fax.look())"), ["whole", "whole"]
    browser.until("app.keeping.sizes.size === 2")
    browser.run("app.keeping.last.then(() => 1)")
    browser.go(address)
    browser.until(READ.format(2))
    browser.run("""document.getElementById("keep").click(); app.keeping.last.then(() => 1)""")
    browser.until("app.keeping.sizes.size === 0")
    yield "nothing is left in the storage", browser.run(
        "app.keeping.last.then(() => app.keeping.ask((store) => store.getAllKeys())).then((it) => it.length)"), 0
    browser.go(address)
    yield "switched off, none comes back", browser.run("""app.keeping.restored().then((files) => [files.length,
        app.faxes.length, document.getElementById("keep").checked])"""), [0, 0, False]
    browser.run("localStorage.clear(); document.getElementById('keep').checked = true")
    yield from stale(browser, address)


def stale(browser: Browser, address: str) -> Generator[Claim, None, None]:
    """What a tab has kept that is gone is deleted as the page is opened again, and shown to nobody."""
    browser.run("""app.keeping.ask((store) => store.put(
        { tab: "gone", number: 1, time: 0, file: new File(["x"], "x.tif") }, "gone 1"))""")
    browser.go(address)
    browser.until("app.keeping.last.then(() => app.keeping.ask((store) => store.getAllKeys())).then(() => true)")
    yield "it is deleted", browser.run("""new Promise((resolve) => setTimeout(resolve, 300)).then(
        () => app.keeping.ask((store) => store.getAllKeys()))"""), []
    yield "and not shown", browser.run("app.faxes.length"), 0


PARTS: list[Any] = [of_its_page, turned_pages, many, once, saved, noticed, kept]
