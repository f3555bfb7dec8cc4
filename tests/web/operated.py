"""A drawn operator of the page: files are opened, sent by a page around it, switched, closed, deleted and written over;
pages that are named are saved, turned, made larger and inverted; their reading is stopped, their workers break down, what
the page asks of workers is held back meanwhile, it speaks another language, and is loaded again. After some steps all
that is seen is compared with a plain model: whose picture, which verdict, how many workers, how much memory.

An episode is drawn by the seed and its number alone, and begins with no file open. With FAXPAGES_EPISODE in the
environment that one alone is drawn, and its steps are printed."""

from __future__ import annotations

import base64
import dataclasses
import json
import os
import random
import re
from typing import Any, Callable, Generator

from tests import Claim
from tests.convert.files import put
from tests.web import contents, words
from tests.web.browser import Browser, Failed
from tests.web.contents import Content
from tests.web.racing import WATCH
from tests.web.saying import PELS_OF

SEED = os.environ.get("FAXPAGES_SEED", "20261129")
STEPS = int(os.environ.get("FAXPAGES_STEPS", "200" if os.environ.get("DRAWS") == "short" else "1000"))
ONE = os.environ.get("FAXPAGES_EPISODE", "")
EPISODE = 100
# So many files are open at most, in some episodes so many, and so many there are.
MOST_OPEN, MANY_OPEN, FILES = 60, 300, 320
# Of so many episodes one has many files.
EACH_MANY = 5
# So many workers may there be once all is read: the shown file's, and those of App.WORKERS others.
MOST_WORKERS = 5
# Bytes of memory that a worker may take, beside what the page had at first and what the browser gives back late.
OF_A_WORKER = 24 * 2 ** 20
# Seconds until all has settled, or it hangs.
SOON = 90
BROKE = "it broke"
NOTHING = "No page is whole, so there is nothing to save in this way."
# The page is watched from its beginning, where files come back that were open.
WATCH_ANEW = WATCH.replace("while (app.fax) app.close();", "")
# What a verdict may begin with, and what has to have happened then.
ANEW = "The file was changed on the disk, and was read again. "
LATER = re.compile(r"It cannot be shown any more: (.*?) What was read of it before: ")
FIRST = re.compile(r"This file was not read: (.*)")
WHY = {
    "the file is gone from its place, or was changed there: open it again.": "touched",
    "the file was changed on the disk: open it again once it is whole.": "touched",
    "what reads it broke down: the browser does not say why.": "broken",
}
LEFT = re.compile(r"You stopped the reading\. Of ([\d,]+) pages, those before page ([\d,]+) were read\.")
SETTLED = """(() => {
    const { fax, view, makings } = app;
    const isIdle = (queue) => queue.running === 0 && !queue.waiting.some((job) => job.isWanted());
    if (app.isDue || makings.working || app.faxes.some((it) => it.isBusy()) || view.isWaiting) return false;
    if (view.fax !== fax || (fax && view.reading !== fax.reading)) return false;
    return isIdle(view.queue) && isIdle(view.smalls.queue);
})()"""
SEEN = f"""(() => {{
    const text = (id) => document.getElementById(id).textContent;
    const {{ view, faxes }} = app;
    const isShrunk = (sheet) => sheet.shrinking().join() !== "1,1";
    const drawn = (sheet) => sheet.tiles.size > 0 && !isShrunk(sheet) &&
        [...sheet.tiles.values()].every((tile) => tile.dataset.drawn) && {PELS_OF}(sheet);
    const greys = (canvas) => canvas.getContext("2d").getImageData(0, 0, canvas.width, canvas.height).data
        .filter((_, at) => at % 4 === 0);
    const link = document.querySelector("#saved a");
    return JSON.stringify({{
        files: [...document.querySelectorAll("#files-list button")].map((it) => [it.firstChild.textContent,
            it.className, it.getAttribute("aria-pressed")]),
        none: document.getElementById("fax").hidden, name: text("name"), verdict: text("verdict"),
        title: document.title,
        look: document.getElementById("verdict").className, page: document.getElementById("page").value, of: text("of"),
        size: view.form && [view.form.width, view.form.rows], drawn: view.sheet && drawn(view.sheet),
        shrunk: view.sheet && isShrunk(view.sheet),
        sheets: [...view.sheets.values()].map((it) => [it.page, [it.form.width, it.form.rows], drawn(it)]),
        thumbs: [...document.querySelectorAll("#thumbs-all > div")].map((it) => [Number(it.dataset.page),
            it.firstChild.width, it.firstChild.height, it.firstChild.width > 1 || it.firstChild.height > 1
                ? btoa(String.fromCharCode(...greys(it.firstChild))) : ""]),
        workers: watched.live.size, owned: faxes.filter((fax) => watched.live.has(fax.life.worker)).length,
        addresses: watched.urls.size, ready: faxes.filter((fax) => fax.making?.place).length,
        found: [...document.querySelectorAll("#findings .name, #notes-list li")].map((it) => it.className === "name"
            ? it.textContent : `${{it.firstChild.textContent}}: ${{it.lastChild.textContent.split(":")[0]}}`),
        saved: text("saved"), link: link && link.download, printing: text("printing"),
        pressed: ["marks", "invert"].map((id) => document.getElementById(id).getAttribute("aria-pressed") === "true"),
        shows: [view.hasMarks, view.view.classList.contains("inverted")],
        zoom: document.getElementById("zoom").value, percent: fax && view.form ? `${{view.percent}}%` : null,
        bar: fax && fax.pages ? [view.roll.pages, fax.pages, view.roll.all.offsetHeight,
            Math.max(view.view.clientHeight, Math.round(view.roll.total))] : [0, 0, 0, 0],
    }});
}})()"""


@dataclasses.dataclass(eq=False)
class Opened:
    """A file that is open: what it has held since then, the page that was chosen, and what else befell it."""

    path: str
    held: list[Content]
    page: int = 0
    befell: set[str] = dataclasses.field(default_factory=set)
    # What may be saved of it: what is said begins with one of these names.
    saved: set[str] = dataclasses.field(default_factory=set)

    @property
    def name(self) -> str:
        return os.path.basename(self.path)


class Operator:
    """The page, the files on the disk, and those that are open."""

    def __init__(self, browser: Browser, room: str, known: list[Content], seed: str, most: int) -> None:
        self.browser, self.known, self.draw = browser, known, random.Random(seed)
        self.room, self.most, self.sent = room, most, 0
        # What a step itself found to be otherwise than it has to be.
        self.wrong: list[str] = []
        self.shows = browser.run('[app.view.hasMarks, app.view.view.classList.contains("inverted")]')
        self.done: list[str] = []
        self.opened: list[Opened] = []
        self.shown: Opened | None = None
        self.is_settled = True
        self.disk: dict[str, Content | None] = {}
        for number in range(FILES):
            path = f"{room}/fax-{number}.tif"
            self.disk[path] = self.draw.choice(known)
            put(path, self.content(path).data)

    def content(self, path: str) -> Content:
        content = self.disk[path]
        assert content is not None
        return content

    # The steps. Each says what it did, or nothing where there is nothing to do.

    def open(self) -> str:
        # What is open already with the same bytes is shown, and stands in the list once: that is tried in everyday.
        there = [path for path, content in self.disk.items() if content and not any(
            it.path == path and any(held is content for held in it.held) for it in self.opened)]
        count = self.draw.choice([1, 1, 2, 5, 12, 30, *([100] if self.most > MOST_OPEN else [])])
        count = min(count, self.most - len(self.opened), len(there))
        if count < 1:
            return ""
        paths = self.draw.sample(there, count)
        self.browser.choose("#choose", *paths)
        new = [Opened(path, [self.content(path)]) for path in paths]
        self.browser.until(f"app.faxes.length === {len(self.opened) + len(new)}", SOON)
        self.opened += new
        self.shown = new[0]
        return f"open {[it.name for it in new]}"

    def send(self) -> str:
        """A page around this one sends a file, whose bytes are in no file of the disk."""
        if len(self.opened) >= self.most:
            return ""
        self.sent += 1
        it = Opened(f"{self.room}/sent-{self.sent}.tif", [self.draw.choice(self.known)])
        answer = self.browser.run(f"""app.embedding.take([{{ name: "{it.name}", data: Uint8Array.from(
            atob("{base64.b64encode(it.held[0].data).decode()}"), (letter) => letter.charCodeAt(0)) }}])""")
        assert answer == {"names": [it.name]}, answer
        self.opened.append(it)
        self.shown = it
        return f"sent {it.name}: {it.held[0].verdict}"

    def reload(self) -> str:
        """The page is loaded again, once all was read: what the browser keeps of files comes back, and no other."""
        if not self.is_settled:
            return ""
        self.browser.until("app.keeping.timer === 0 && app.keeping.wanted.size === 0", SOON)
        kept = self.browser.run("""app.keeping.last.then(() =>
            app.faxes.map((fax) => app.keeping.sizes.has(fax.number)))""")
        self.opened = [it for it, is_kept in zip(self.opened, kept, strict=True) if is_kept]
        for it in self.opened:
            it.saved.clear()
        self.browser.go(self.browser.run("location.href"))
        self.browser.run(WATCH_ANEW)
        self.browser.run(words.MARK)
        self.browser.until(f"app.faxes.length === {len(self.opened)}", SOON)
        at = self.browser.run("app.fax ? app.faxes.indexOf(app.fax) : -1")
        if self.shown not in self.opened or at != self.opened.index(self.shown):
            self.shown = self.opened[at] if at >= 0 else None
        self.shows = [True, False]
        return f"load again, with {len(self.opened)} files"

    def switch(self) -> str:
        if not self.opened:
            return ""
        # Those that were changed, or have something to be saved, are gone back to more often.
        marked = [at for at, it in enumerate(self.opened) if "touched" in it.befell or it.saved]
        at = self.draw.choice(marked) if marked and self.draw.random() < 0.4 else self.draw.randrange(len(self.opened))
        said = self.click(f'#files-list button:nth-child({at + 1})', f"show {self.opened[at].name}")
        self.shown = self.opened[at] if said else self.shown
        return said

    def click(self, selector: str, said: str) -> str:
        """Clicks where there is something to be clicked."""
        return said if self.browser.run(f"""(() => {{
            const element = document.querySelector({json.dumps(selector)});
            if (!element.checkVisibility() || element.disabled) return false;
            element.click();
            return true;
        }})()""") else ""

    def close(self) -> str:
        if not self.shown:
            return ""
        at = self.opened.index(self.shown)
        said = f"close {self.shown.name}"
        del self.opened[at]
        self.shown = self.opened[min(at, len(self.opened) - 1)] if self.opened else None
        return self.click("#close", said)

    def touch(self, path: str, content: Content | None) -> None:
        """What is said of it has to be told to those that are open of it."""
        self.disk[path] = content
        for it in self.opened:
            if it.path == path:
                it.befell.add("touched")
                it.held += [content] if content else []

    def path_of_shown(self) -> str:
        """At times the path of the file that is shown, if it is one of the disk."""
        is_meant = self.shown and self.shown.path in self.disk and self.draw.random() < 0.3
        return self.shown.path if self.shown and is_meant else ""

    def delete(self) -> str:
        there = [path for path, content in self.disk.items() if content]
        path = self.path_of_shown() or self.draw.choice(there)
        if self.disk[path]:
            os.unlink(path)
            self.touch(path, None)
        return f"delete {os.path.basename(path)}"

    def rewrite(self) -> str:
        """Another content, or the same; and at times of the same length, as if it was written when the last one was."""
        path = self.path_of_shown() or self.draw.choice(list(self.disk))
        before = os.stat(path) if self.disk[path] else None
        keeps = before is not None and self.draw.random() < 0.5
        same = [it for it in self.known if before is not None and len(it.data) == before.st_size]
        content = self.draw.choice(same if keeps and same else self.known)
        self.touch(path, content)
        put(path, content.data)
        if before is not None and keeps:
            os.utime(path, ns=(before.st_atime_ns, before.st_mtime_ns))
        return f"write over {os.path.basename(path)}: {content.verdict}{' with the same time' if keeps else ''}"

    def page(self) -> str:
        """Goes to a page. How many there are is known once all has settled."""
        count = self.browser.run("app.fax ? app.fax.pages : 0")
        if not self.is_settled or not self.shown or not count:
            return ""
        self.shown.page = self.draw.randrange(min(count, 5))
        self.browser.run(f"""document.getElementById("page").value = "{self.shown.page + 1}";
            document.getElementById("page").dispatchEvent(new Event("change"))""")
        return f"page {self.shown.page}"

    def stop(self) -> str:
        said = self.click("#stop", "stop")
        if self.shown and said:
            self.shown.befell.add("stopped")
        return said

    def again(self) -> str:
        said = self.click("#again", "again")
        if self.shown and said and "touched" not in self.shown.befell:
            self.shown.befell.clear()
        return said

    def breaks(self) -> str:
        """What reads the file breaks down."""
        if not self.shown:
            return ""
        self.shown.befell.add("broken")
        self.browser.run(f"""app.fax.life.worker?.dispatchEvent(
            new ErrorEvent("error", {{ message: "{BROKE}", cancelable: true }}))""")
        return "break down"

    def save(self) -> str:
        """Has a file be made, where that is offered."""
        if not self.shown or self.browser.run(
                '!document.getElementById("save").checkVisibility() || app.makings.working !== null'):
            return ""
        kind = self.draw.choice(["pdf", "tiff3", "tiff1", "pbm", "png", "text"])
        text = self.draw.choice(["", "", "1", "2", "1-2", "3,1", "99999", "x"])
        name, is_refused, pages = self.browser.run(f"""(() => {{
            const form = document.getElementById("save");
            document.getElementById("chosen").value = "{text}";
            form.elements.kind.value = "{kind}";
            const before = app.fax.making;
            form.querySelector("button").click();
            document.getElementById("chosen").value = "";
            return [app.fax.making?.name, app.fax.making === before, app.fax.shownPages().length];
        }})()""")
        last = max([int(it) for it in re.findall(r"\d+", text)], default=1)
        if is_refused != (text == "x" or last > pages):
            self.wrong.append(f"pages {text!r} of {pages} are {'' if is_refused else 'not '}refused")
        if is_refused:
            return f"save pages {text!r}, which are none of {pages}"
        wanted = {"3,1": "1,3"}.get(text, text) if kind not in ("png", "text") else ""
        if (f"-pages-{wanted}" in name) != bool(wanted) or ("-pages-" in name) != bool(wanted):
            self.wrong.append(f"pages {text!r} are saved as {name}")
        self.shown.saved.add(name)
        return f"save {name}"

    def cancel(self) -> str:
        return self.click("#save-cancel", "cancel")

    def hold(self) -> str:
        call = self.draw.choice(["part", "small", "open", "save"])
        self.browser.run(f'watched.hold = "{call}"')
        return f"hold {call} back"

    def release(self) -> str:
        self.browser.run("watched.release()")
        return "let go"

    def scroll(self) -> str:
        """Scrolls, maybe to another page: which one it is, is the page's to say, and its picture has to be that."""
        if not self.is_settled or not self.shown or not self.browser.run("app.fax.pages"):
            return ""
        self.browser.run(f"""app.view.view.scrollBy(0, {self.draw.randint(-900, 900)});
            new Promise((resolve) => requestAnimationFrame(() => requestAnimationFrame(resolve)))""")
        self.shown.page = self.browser.run("app.page")
        return f"scroll to page {self.shown.page}"

    def zoom(self) -> str:
        button = self.draw.choice(["smaller", "larger", "whole", "wide", "left", "right"])
        return self.click(f"#{button}", button)

    def percent(self) -> str:
        """A size is typed, or what is none."""
        if not self.shown:
            return ""
        text = self.draw.choice(["100", "25%", "400", "1600", "x", "0"])
        self.browser.run(f"""document.getElementById("zoom").value = "{text}";
            document.getElementById("zoom").dispatchEvent(new Event("change"))""")
        return f"zoom {text}"

    def look_otherwise(self) -> str:
        """Marks are switched off and on, and the page is inverted, and as it was again."""
        at = self.draw.randrange(2)
        said = self.click(["#marks", "#invert"][at], ["marks", "invert"][at])
        if said:
            self.shows[at] = not self.shows[at]
        return said

    def speak(self) -> str:
        """It speaks another language, and English again, which the model knows."""
        for code in ("de", "en"):
            self.browser.run(f"""document.getElementById("language").value = "{code}";
                document.getElementById("language").dispatchEvent(new Event("change"))""")
        self.wrong += words.left(self.browser)
        return "speak German, and English again"

    def step(self, grows: bool) -> None:
        weights: dict[Callable[[], str], int] = {
            self.open: 8 if grows else 2, self.close: 3 if grows else 12, self.switch: 18, self.delete: 2,
            self.rewrite: 6, self.page: 5, self.stop: 5, self.again: 4, self.breaks: 1, self.save: 9, self.cancel: 2,
            self.hold: 3, self.release: 3, self.zoom: 3, self.scroll: 4, self.send: 3, self.percent: 2,
            self.look_otherwise: 3, self.speak: 1, self.reload: 2,
        }
        said = ""
        while not said:
            (does,) = self.draw.choices(list(weights), list(weights.values()))
            said = does()
        self.is_settled = False
        self.done.append(said)

    # What is seen, beside the model.

    def look(self) -> list[str]:
        """What differs from the model, once all has settled."""
        self.browser.run("watched.release()")
        try:
            self.browser.until(SETTLED, SOON)
        except Failed:
            return [f"it hangs: {self.browser.run(HANGS)}"]
        self.is_settled = True
        seen = json.loads(self.browser.run(SEEN))
        return [*self.wrong, *self.of_all(seen), *(self.of_shown(seen, self.shown) if self.shown else []),
                *words.left(self.browser)]

    def of_all(self, seen: Any) -> list[str]:
        """What differs in the list, in workers and in memory."""
        wrong = []
        names = [name for name, _, _ in seen["files"]]
        pressed = [at for at, it in enumerate(seen["files"]) if it[2] == "true"]
        shown = [at for at, it in enumerate(self.opened) if it is self.shown]
        if names != [it.name for it in self.opened] or pressed != shown or seen["none"] != (not self.opened):
            wanted = [it.name for it in self.opened]
            first = next((at for at, (one, other) in enumerate(zip(names, wanted)) if one != other), len(wanted))
            wrong.append(f"the list has {len(names)} files, and not {len(wanted)}, others from {first} on, and of "
                         f"these {pressed} is chosen, and not {shown}; none is open: {seen['none']}")
        wrong += [f"{it.name} looks {look} in the list" for it, (_, look, _) in zip(self.opened, seen["files"])
                  if not it.befell and look != it.held[0].look]
        if seen["workers"] != seen["owned"] or seen["workers"] > min(MOST_WORKERS, len(self.opened)):
            wrong.append(f"{seen['workers']} workers live, of which {seen['owned']} are of open files")
        if seen["shows"] != self.shows or seen["pressed"] != self.shows:
            wrong.append(f"marks and inverting are {seen['shows']}, said to be {seen['pressed']}, and not {self.shows}")
        if seen["percent"] and seen["zoom"] != seen["percent"]:
            wrong.append(f"the size is said to be {seen['zoom']}, and not {seen['percent']}")
        if seen["bar"][0] != seen["bar"][1] or abs(seen["bar"][2] - seen["bar"][3]) > 1:
            wrong.append(f"the bar is of {seen['bar'][0]} pages and {seen['bar'][2]} high, and not {seen['bar'][1::2]}")
        if seen["addresses"] != seen["ready"]:
            wrong.append(f"{seen['addresses']} addresses for {seen['ready']} files that were made")
        return wrong

    def of_shown(self, seen: Any, it: Opened) -> list[str]:
        """What differs of the file that is shown."""
        wrong = []
        if seen["name"] != it.name or not seen["title"].startswith(f"{it.name}: "):
            wrong.append(f"{seen['name']} is shown, and not {it.name}")
        fits = [content for content in it.held if fitting(seen["verdict"], content, it.befell)]
        if not fits:
            wrong.append(f"the verdict on {it.name}, which befell {it.befell}, is {seen['verdict']!r}, "
                         f"and not {[content.verdict for content in it.held]}")
        else:
            reasons = [not_of(seen, it, content) for content in fits]
            wrong += [] if [] in reasons else reasons[0]
        if seen["saved"] and not any(name in seen["saved"] for name in it.saved) and not (
                it.saved and seen["saved"] == NOTHING):
            wrong.append(f"under {it.name} is said {seen['saved']!r}")
        return wrong


HANGS = """JSON.stringify([app.isDue, app.makings.working?.file.name, app.view.queue.running,
    app.view.smalls.queue.running, app.faxes.filter((it) => it.isBusy()).map((it) => [it.file.name, it.state, it.life.state,
        it.life.calls.size])])"""


def fitting(verdict: str, content: Content, befell: set[str]) -> bool:
    """Whether a verdict may be said of a content, where all this befell its file."""
    if "touched" in befell and verdict.startswith(ANEW):
        return fitting(verdict[len(ANEW):], content, befell)
    later, first, left = LATER.match(verdict), FIRST.fullmatch(verdict), LEFT.fullmatch(verdict)
    if later:
        rest = verdict[later.end():]
        return WHY.get(later[1]) in befell and fitting(rest, content, befell)
    if first:
        return WHY.get(first[1]) in befell
    if left:
        count, page = (int(number.replace(",", "")) for number in left.groups())
        return "stopped" in befell and count <= content.count and page <= count + 1
    return verdict == content.verdict


def not_of(seen: Any, it: Opened, content: Content) -> list[str]:
    """What of what is seen is not of a content."""
    verdict = seen["verdict"]
    has_failed = bool(LATER.search(verdict) or FIRST.search(verdict))
    is_whole = verdict.endswith(content.verdict)
    look = content.look if is_whole and not has_failed else "left"
    wrong = []
    if seen["look"] != (look if look != "other" else "left"):
        wrong.append(f"{it.name}: the verdict looks {seen['look']}, and not {look}: {verdict}")
    if is_whole and not has_failed and sorted(seen["found"]) != sorted(content.found):
        wrong.append(f"{it.name}: what is found is {seen['found']}, and not {content.found}")
    if is_whole and content.count:
        page = min(it.page, content.count - 1)
        if (seen["page"], seen["of"]) != (str(page + 1), f"of {content.count:,}"):
            wrong.append(f"{it.name}: it shows page {seen['page']} {seen['of']}, and not {page + 1} of {content.count}")
        if (seen["drawn"] or not (has_failed or seen["shrunk"])) and not is_picture(
                seen["size"], seen["drawn"], content.pictures[page]):
            wrong.append(f"{it.name}: the picture is not that of page {page + 1}")
        wrong += [f"{it.name}: below or above is not page {page + 1}" for page, size, pels in seen["sheets"]
                  if pels and page < len(content.pictures) and not is_picture(size, pels, content.pictures[page])]
    for page, wide, high, greys in seen["thumbs"]:
        if page >= len(content.pictures):
            wrong += [] if page < content.count else [f"{it.name}: there is a thumbnail of page {page + 1}"]
        elif (greys or not (has_failed or "stopped" in it.befell)) and (
                wide, high, base64.b64decode(greys)) != content.small(page):
            wrong.append(f"{it.name}: the thumbnail of page {page + 1} is another")
    return wrong


def is_picture(size: list[int], drawn: str, picture: contents.Picture) -> bool:
    """Whether a page that is seen is this picture."""
    wide, high, pels = picture
    return size == [wide, high] and bool(drawn) and base64.b64decode(drawn) == pels


def grown_by(browser: Browser, first: int) -> int:
    """How much memory the page has more than at first; what nothing uses any more is given back, where it is much."""
    grown = browser.memory() - first
    if grown > browser.LATE:
        browser.collect()
        grown = browser.memory() - first
    return grown


def operated(browser: Browser, program: str, room: str) -> Generator[Claim, None, None]:
    """Whatever is done, what is seen is what the model says."""
    browser.run(WATCH)
    browser.run(words.MARK)
    known = contents.all_contents(program, room)
    yield "contents were drawn", len(known) > 12, True
    first, grew, looks, opened = browser.memory(), 0, 0, 0
    episodes = [int(ONE)] if ONE else range(STEPS // EPISODE)
    for episode in episodes:
        most = MANY_OPEN if episode % EACH_MANY == 1 else MOST_OPEN
        operator = Operator(browser, room, known, f"{SEED} {episode}", most)
        for at in range(EPISODE):
            operator.step(grows=at < EPISODE * 0.7)
            opened = max(opened, len(operator.opened))
            if ONE:
                print(f"{at}: {operator.done[-1]}", flush=True)
            if operator.draw.random() < 0.4 or at == EPISODE - 1:
                wrong = operator.look()
                looks += 1
                grown, workers = grown_by(browser, first), browser.run("watched.live.size")
                grew = max(grew, grown)
                if grown > browser.LATE + OF_A_WORKER * workers:
                    wrong.append(f"{workers} workers, and {grown >> 20} MB of memory more than at first")
                yield f"episode {episode}, step {at}, after {operator.done[-6:]}", wrong, []
                if wrong:
                    break
        browser.run("watched.release(); localStorage.clear(); while (app.fax) app.close()")
        yield f"episode {episode}: nothing is left", browser.run(
            "[watched.live.size, watched.urls.size, document.getElementById('fax').hidden]"), [0, 0, True]
    print(f"(operated: seed {SEED}, {len(episodes) * EPISODE} steps, {looks} looks, {opened} files open at most, "
          f"{grew / 2 ** 20:.0f} MB more than at first)")
