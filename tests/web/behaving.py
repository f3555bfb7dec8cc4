"""How the page behaves: keys, names for screen readers, narrow and dark screens, and no request to anywhere."""

from __future__ import annotations

import base64
import json
import os
import re
import shutil
import urllib.parse
from typing import Generator

from tests import TOP, Claim
from tests.convert import pages
from tests.convert.files import get, put
from tests.finding import found
from tests.web import faxes
from tests.web.browser import Browser
from tests.web.chromium import Chromium

SAMPLE = f"{TOP}/samples/three-pages.tif"
# How light a colour is, what is below an element, and the contrast of two.
LIGHT = """
    const parse = (text) => text.match(/[\\d.]+/g).map(Number);
    const light = (colour) => colour.slice(0, 3).map((it) => it / 255)
        .map((it) => it <= 0.03928 ? it / 12.92 : ((it + 0.055) / 1.055) ** 2.4)
        .reduce((sum, it, at) => sum + it * [0.2126, 0.7152, 0.0722][at], 0);
    const below = (element) => {
        for (let at = element; at; at = at.parentElement) {
            const colour = parse(getComputedStyle(at).backgroundColor);
            if (colour.length === 3 || colour[3] > 0) return colour;
        }
        return [255, 255, 255];
    };
    const contrast = (one, other) => (Math.max(one, other) + 0.05) / (Math.min(one, other) + 0.05);"""
# Each text whose contrast with what is below it is less than 4.5 to 1.
FAINT = """(() => {""" + LIGHT + """
    return [...document.querySelectorAll("body *")].filter((element) => {
        const hasText = [...element.childNodes].some((it) => it.nodeType === 3 && it.data.trim());
        if (!hasText || !element.checkVisibility() || element.closest("[disabled], .unseen, script")) return false;
        return contrast(light(parse(getComputedStyle(element).color)), light(below(element))) < 4.5;
    }).map((it) => it.outerHTML.slice(0, 80));
})()"""
# The contrast of a mark with what is beside the paper.
MARKS = """(() => {""" + LIGHT + """
    const mark = document.querySelector(".current .mark");
    return contrast(light(parse(getComputedStyle(mark).backgroundColor)), light(below(app.view.view)));
})()"""


def opened(browser: Browser) -> None:
    """The sample is opened, read to its end and shown: the page shows what has changed a little later."""
    browser.run("while (app.fax) app.close()")
    browser.choose("#choose", SAMPLE)
    browser.until('app.fax && app.fax.state === "done" && !app.isDue && app.view.fax === app.fax && app.view.form')
    browser.run("document.activeElement.blur()")


def keys(browser: Browser, _program: str, _room: str) -> Generator[Claim, None, None]:
    """Pages are gone through by keys, and to what is wrong."""
    opened(browser)
    for key, page in (("n", 1), ("n", 2), ("n", 2), ("p", 1), ("Home", 0), ("End", 2), ("p", 1), ("f", 2), ("Home", 0),
                      ("f", 2)):
        browser.press(key, number={"Home": 36, "End": 35}.get(key, 0))
        yield f"{key}: the page", browser.run(
            '[app.page, Number(document.getElementById("page").value)]'), [page, page + 1]
    yield "the page is said", browser.run('document.getElementById("said").textContent'), "Page 3, 1 row missing."
    yield "the mark that was gone to stands out", browser.run(
        "[...document.querySelectorAll('.current .mark')].map((it) => it.className)"), ["mark last"]
    browser.run('document.getElementById("thumbs").focus()')
    for key, number, page in (("ArrowUp", 38, 1), ("ArrowDown", 40, 2), ("PageUp", 33, 0), ("PageDown", 34, 2)):
        browser.press(key, number=number)
        yield f"{key} in the list: the page", browser.run("app.page"), page
    yield "the list says which is chosen", browser.run("""[
        document.getElementById("thumbs").getAttribute("aria-activedescendant"),
        document.querySelector('#thumbs [aria-selected="true"]').id]"""), ["thumb-2", "thumb-2"]
    browser.run('document.getElementById("page").focus()')
    browser.press("p")
    yield "a key in a field is none of the page's", browser.run("app.page"), 2
    seen = []
    browser.run("document.activeElement.blur()")
    for _ in range(60):
        browser.press("Tab", number=9)
        seen.append(browser.run("document.activeElement.id || document.activeElement.name"))
    wanted = {"choose", "close", "kind", "thumbs", "before", "page", "smaller", "larger", "whole", "wide", "left",
              "right", "view"}
    yield "all is reached by the Tab key", wanted - set(seen), set()


def findings_by_keys(browser: Browser, _program: str, _room: str) -> Generator[Claim, None, None]:
    """Of a page that is wholly in sight, f shows each place where rows are missing."""
    browser.run("while (app.fax) app.close()")
    browser.choose("#choose", f"{TOP}/samples/received/over-a-noisy-line.tif")
    browser.until('app.fax && app.fax.state === "done" && !app.isDue && app.view.fax === app.fax && app.view.form')
    browser.run("document.activeElement.blur(); app.view.setZoom('whole')")
    tops = list[object]()
    for _ in range(3):
        browser.press("f")
        tops.append(browser.run("[...document.querySelectorAll('.mark.last')].map((it) => it.offsetTop)"))
    yield f"one mark stands out, another each time: {tops}", (
        [len(it) for it in tops if isinstance(it, list)], len({str(it) for it in tops})), ([1, 1, 1], 3)
    browser.run("while (app.fax) app.close()")


def zoom(browser: Browser, _program: str, _room: str) -> Generator[Claim, None, None]:
    """Zoomed and turned by keys and buttons; a page is as high as its resolution says."""
    opened(browser)
    size = "[app.view.sheet.element.clientWidth, app.view.sheet.element.clientHeight]"
    browser.run("app.goTo(1)")
    browser.press("1")
    yield "1: a pel is a pel", browser.run(size), [8, round(3 * 204 / 196)]
    browser.press("+", shift=True)
    wide = browser.run("app.view.scale")
    yield "+: larger", wide > 1.2, True
    browser.press("-")
    yield "-: smaller", abs(browser.run("app.view.scale") - 1) < 0.01, True
    browser.press("1")
    browser.press("r")
    yield "r: turned", browser.run(f"[app.view.turns, ...{size}]"), [1, 3, 8]
    browser.press("l")
    browser.press("l")
    yield "l: turned back", browser.run("app.view.turns"), 3
    browser.press("r")
    for button in ("larger", "larger", "right", "left", "wide"):
        browser.run(f'document.getElementById("{button}").click()')
    yield "buttons do the same", browser.run("[app.view.turns, app.view.zoom]"), [0, "wide"]
    browser.press("0")
    yield "0: the whole page", browser.run("app.view.zoom"), "whole"


def names(browser: Chromium, _program: str, _room: str) -> Generator[Claim, None, None]:
    """All that can be used has a name and a role in the tree of accessibility."""
    opened(browser)
    browser.call("Accessibility.enable")
    nodes = browser.call("Accessibility.getFullAXTree")["nodes"]
    used = [it for it in nodes if not it.get("ignored") and it["role"]["value"] in
            ("button", "textbox", "spinbutton", "combobox", "listbox", "option", "link", "checkbox", "image", "toolbar",
             "region")]
    nameless = [it["role"]["value"] for it in used if not it.get("name", {}).get("value")]
    yield "things that can be used are named", (nameless, len(used) > 20), ([], True)
    roles = {it["role"]["value"] for it in nodes}
    wanted = {"banner", "main", "heading", "status", "listbox", "option", "toolbar", "image", "list"}
    yield "roles", wanted - roles, set()
    image = [it["name"]["value"] for it in nodes if it["role"]["value"] == "image" and "Picture" in it["name"]["value"]]
    yield "the picture says what it is", image, ["Picture of page 1: whole"]
    buttons = [it["name"]["value"] for it in nodes if it["role"]["value"] == "button" and not it.get("ignored")]
    browser.call("Accessibility.disable")
    yield "no button is called by its number", [it for it in buttons if it.startswith("file-")], []


def heard(browser: Browser, program: str, room: str) -> Generator[Claim, None, None]:
    """What is read aloud is what is settled, once; the list of files says which are damaged; letters can be off."""
    browser.run("while (app.fax) app.close()")
    browser.run("""window.heard = [];
        new MutationObserver(() => heard.push(document.getElementById("said").textContent))
            .observe(document.getElementById("said"), { childList: true, characterData: true, subtree: true })""")
    path = put(f"{room}/many.tif", faxes.convert(program, faxes.image("noise", 2500) * 40, "-o", "mh"))
    browser.choose("#choose", path, SAMPLE)
    browser.until("app.faxes.length === 2 && app.faxes.every((fax) => fax.state === 'done')")
    browser.until("heard.some((text) => text.includes('This fax is whole'))")
    yield "two things are heard of a fax", browser.run("heard"), [
        "Opened many.tif, three-pages.tif.", "many.tif: This fax is whole: 40 pages, 100,000 rows."]
    yield "the list says which is damaged", browser.run(
        '[...document.querySelectorAll("#files-list button")].map((it) => it.textContent)'), [
            "many.tif, whole", "three-pages.tif, much is missing"]
    browser.run("document.activeElement.blur(); document.getElementById('letters').checked = false")
    browser.press("n")
    yield "letters are put off", browser.run("app.page"), 0
    browser.run("document.getElementById('letters').checked = true")
    browser.press("n")
    yield "and are keys again", browser.run("app.page"), 1
    browser.run("while (app.fax) app.close()")


def odd_names(browser: Browser, program: str, room: str) -> Generator[Claim, None, None]:
    """What turns a name round is shown, and a name turns nothing else round."""
    name = "fax\u202egpj.tif"
    browser.choose("#choose", put(f"{room}/{name}", faxes.drawn(program, 4)))
    browser.until("app.fax && app.fax.state === 'done'")
    wanted = "fax\u27e8U+202E\u27e9gpj.tif"
    browser.until(f'document.getElementById("name").textContent === "{wanted}"')
    yield "it is shown", browser.run("document.title"), f"{wanted}: Fax pages"
    yield "the name stands by itself", browser.run('document.getElementById("name").tagName'), "BDI"
    browser.run("while (app.fax) app.close()")


def narrow(browser: Chromium, _program: str, _room: str) -> Generator[Claim, None, None]:
    """On a narrow screen nothing is wider than it; light and dark, each text stands out."""
    opened(browser)
    for width in (1280, 360):
        browser.resize(width, 800)
        for scheme in ("light", "dark"):
            browser.call("Emulation.setEmulatedMedia", features=[{"name": "prefers-color-scheme", "value": scheme}])
            browser.until(f"innerWidth === {width} && matchMedia('(prefers-color-scheme: {scheme})').matches")
            wide = browser.run("document.documentElement.scrollWidth")
            yield f"{width}, {scheme}: not wider", wide <= width, True
            yield f"{width}, {scheme}: texts stand out", browser.run(FAINT), []
    yield "dark is another picture", browser.run("getComputedStyle(document.body).backgroundColor"), "rgb(27, 28, 30)"
    browser.resize(1280, 900)
    browser.call("Emulation.setEmulatedMedia", features=[])


def forced(browser: Chromium, _program: str, _room: str) -> Generator[Claim, None, None]:
    """With colours that the system forces, what is chosen is told by its outline, and pages by theirs."""
    browser.run("while (app.fax) app.close()")
    browser.choose("#choose", SAMPLE, f"{TOP}/samples/one-mh-page.tif")
    browser.until("app.faxes.length === 2 && app.faxes.every((fax) => fax.state === 'done') && app.view.form !== null")
    browser.until("document.querySelectorAll('#thumbs [role=option]').length === 3")
    outlines = """["#files [aria-pressed=true]", "#files [aria-pressed=false]", "#thumbs [aria-selected=true]",
        "#thumbs [aria-selected=false]", ".sheet"].map((it) => {
            const style = getComputedStyle(document.querySelector(it));
            return style.outlineStyle === "none" ? "none" : style.outlineWidth;
        })"""
    browser.call("Emulation.setEmulatedMedia", features=[{"name": "forced-colors", "value": "active"}])
    browser.until("matchMedia('(forced-colors: active)').matches")
    yield "forced colours: outlines", browser.run(outlines), ["3px", "none", "3px", "none", "1px"]
    browser.run("app.show(app.faxes[0]); app.goTo(2)")
    browser.until("document.querySelector('.current .mark')")
    for scheme in ("light", "dark"):
        browser.call("Emulation.setEmulatedMedia", features=[
            {"name": "forced-colors", "value": "active"}, {"name": "prefers-color-scheme", "value": scheme}])
        browser.until(f"matchMedia('(prefers-color-scheme: {scheme})').matches")
        yield f"forced colours, {scheme}: marks stand out", browser.run(MARKS) > 4.5, True
    browser.call("Emulation.setEmulatedMedia", features=[])
    browser.run("while (app.fax) app.close()")


def page_first(browser: Chromium, _program: str, _room: str) -> Generator[Claim, None, None]:
    """On a phone, and at 200 percent, the page begins in the first screen: all else is folded, and can be opened."""
    opened(browser)
    browser.choose("#choose", f"{TOP}/samples/one-mh-page.tif")
    browser.until("app.faxes.length === 2 && app.faxes.every((fax) => fax.state === 'done')")
    browser.run("app.show(app.faxes[0])")
    top = 'Math.round(document.getElementById("view").getBoundingClientRect().top + scrollY)'
    switches = """["#keep", "#language", "#close-all"].filter((it) =>
        document.querySelector(it).checkVisibility())"""
    for width, height in ((360, 740), (640, 450)):
        browser.resize(width, height)
        browser.until(f"innerWidth === {width} && !document.getElementById('more').open")
        yield f"{width} by {height}: the page begins in the first screen", browser.run(top) < height - 40, True
        yield f"{width} by {height}: the switches are folded", browser.run(switches), []
        browser.run('document.querySelector("#more > summary").click()')
        browser.until('document.getElementById("findings").checkVisibility()')
        yield f"{width} by {height}: it takes the place of the page", browser.run(
            'document.getElementById("view-part").checkVisibility()'), False
        yield f"{width} by {height}: the switches", browser.run(switches), ["#keep", "#language", "#close-all"]
        browser.run('document.querySelector("#findings button").click()')
        yield f"{width} by {height}: a finding leads to the page", browser.until(
            'document.getElementById("view-part").checkVisibility() && !document.getElementById("more").open'), True
        yield f"{width} by {height}: nothing scrolls but the page", browser.run("""[...document.querySelectorAll("*")]
            .filter((it) => it.checkVisibility() && it.scrollHeight > it.clientHeight + 1 &&
                /auto|scroll/.test(getComputedStyle(it).overflowY)).map((it) => it.id || it.localName)
            .filter((it) => it !== "view")"""), []
    browser.resize(360, 740)
    yield from by_fingers(browser)
    browser.run("while (app.fax) app.close()")
    yield "before a file is open: the switches", browser.run(switches), ["#keep", "#language"]
    yield "it is said that nothing leaves", browser.run('document.querySelector(".motto").checkVisibility()'), True
    browser.resize(1280, 900)
    opened(browser)
    browser.until("document.getElementById('more').open")
    paper = browser.run('getComputedStyle(document.querySelector(".paper")).backgroundColor')
    yield "what is not drawn is not white", paper != "rgb(255, 255, 255)", True


def by_fingers(browser: Chromium) -> Generator[Claim, None, None]:
    """Where fingers leave no room to choose pages, nothing says that they can be chosen."""
    fields = """["chosen", "hint-pages"].filter((it) => document.getElementById(it).checkVisibility())"""
    browser.run('document.getElementById("more").open = true')
    yield "by a mouse: pages are chosen, and it is said", browser.run(fields), ["hint-pages"]
    browser.run('document.getElementById("more").open = false')
    yield "the field stands beside Print", browser.run(fields), ["chosen"]
    browser.call("Emulation.setTouchEmulationEnabled", enabled=True, maxTouchPoints=5)
    browser.call("Emulation.setDeviceMetricsOverride", width=360, height=740, deviceScaleFactor=1, mobile=True)
    browser.until("matchMedia('(pointer: coarse)').matches")
    browser.run('document.getElementById("more").open = true')
    yield "by fingers: it is not said", browser.run(fields), []
    browser.run('document.getElementById("more").open = false')
    yield "by fingers: there is no field", browser.run(fields), []
    browser.call("Emulation.setTouchEmulationEnabled", enabled=False)
    browser.resize(360, 740)
    browser.until("!matchMedia('(pointer: coarse)').matches")


def refusals(browser: Browser, _program: str, _room: str) -> Generator[Claim, None, None]:
    """The page's own policy refuses requests, code from texts, and frames."""
    refused = browser.run("""(async () => {
        const seen = [];
        document.addEventListener("securitypolicyviolation", (event) => seen.push(event.effectiveDirective));
        const tried = await Promise.all([
            fetch("refused").then(() => "fetched", () => "refused"),
            new Promise((resolve) => {
                const image = new Image();
                image.onload = () => resolve("loaded");
                image.onerror = () => resolve("refused");
                image.src = "http://192.0.2.1/refused.png";
            }),
        ]);
        try { tried.push(String((0, eval)("1"))); } catch { tried.push("refused"); }
        const frame = document.createElement("iframe");
        frame.src = "refused.html";
        document.body.append(frame);
        const script = document.createElement("script");
        script.textContent = "window.wasRun = true";
        document.body.append(script);
        const wanted = ["connect-src", "frame-src", "img-src", "script-src", "script-src-elem"];
        for (let turn = 0; turn < 2000 && !wanted.every((it) => seen.includes(it)); turn++) {
            await new Promise((resolve) => setTimeout(resolve, 10));
        }
        frame.remove();
        tried.push(String(window.wasRun));
        return [tried, [...new Set(seen)].sort()];
    })()""")
    yield "fetch, image, eval and script are refused", refused[0], ["refused", "refused", "refused", "undefined"]
    yield "each by the policy", refused[1], ["connect-src", "frame-src", "img-src", "script-src", "script-src-elem"]


def nothing_is_asked(browser: Chromium, address: str) -> Generator[Claim, None, None]:
    """Whatever was done, the page asked for its own files alone, and keeps nothing of files that are closed."""
    folder = address.rsplit("/", 1)[0] + "/"
    asked = [it["params"]["request"]["url"] for it in browser.events if it["method"] == "Network.requestWillBeSent"]
    elsewhere = [url for url in asked if not url.startswith((folder, "blob:", "data:")) and "refused" not in url]
    yield f"{address}: requests elsewhere", elsewhere, []
    yield f"{address}: its own files were asked for", sum(url.startswith(folder) for url in asked) >= 10, True
    yield f"{address}: nothing is kept", browser.run("""(async () => {
        while (app.fax) app.close();
        await app.keeping.last;
        return [document.cookie, localStorage.length, (await app.keeping.ask((store) => store.getAllKeys())).length,
            Object.keys(sessionStorage).filter((it) => !it.startsWith("faxpages-"))];
    })()"""), ["", 0, 0, []]
    errors = [it["params"] for it in browser.events if it["method"] == "Runtime.exceptionThrown"]
    yield f"{address}: no error", [json.dumps(it)[:300] for it in errors], []


def only_its_files(asked_for: list[str]) -> Generator[Claim, None, None]:
    """A server of the folder was asked for files of the folder, and for nothing else."""
    there = {f"/{name}" for name in os.listdir(os.path.join(TOP, "web"))}
    asked = {urllib.parse.unquote(re.sub(r"\?.*", "", path)) for path in asked_for}
    yield "the server was asked for files of web/ alone", asked - there, set()
    yield "it was asked for the page", asked >= {"/index.html", "/faxpages.js", "/faxpages.wasm.js"}, True
