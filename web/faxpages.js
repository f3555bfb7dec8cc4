"use strict";

/** @param {string} id @returns {any} */
function the(id) {
    return document.getElementById(id);
}

/** The page: the files that are open, the one that is shown, and what the reader asks for. */
class App {
    /** So many files are read at once, and so many that are not shown keep a worker. */
    static READERS = 3;
    static WORKERS = 4;
    /** So many milliseconds what was done is shown. */
    static SEEN = 5000;
    /** As in faxpages.css. */
    static NARROW = "(max-width: 60rem)";
    /** So many letters of a report are shown; all are saved. */
    static MOST_REPORT = 50000;

    constructor() {
        /** @type {Fax[]} */
        this.faxes = [];
        /** @type {Fax | null} */
        this.fax = null;
        this.isDue = false;
        this.noticed = 0;
        this.makings = new Makings({ said: the("saved"), submit: the("save-make"), cancel: the("save-cancel"),
            progress: the("save-progress") }, () => this.changed(), (text) => this.announce(text));
        /** What was said last of a file that is read. */
        this.settled = "";
        this.files = new Files({ show: (fax) => this.show(fax), closeAll: () => this.closeAll(),
            saveAll: () => this.saveAll() });
        this.findings = new Findings((page, row) => this.goToFinding(page, row));
        /** Which reading of bare data the form shows. */
        this.asked = "";
        this.languages = new Languages(the("language"), () => this.retell());
        this.choosing = new Choosing(the("chosen"), () => this.print());
        const smalls = new Smalls();
        this.view = new View(the("view"), smalls, (page) => this.follow(page), () => this.renderZoom());
        this.printing = new Printing(this.view, { box: the("printed"), said: the("printing"),
            cancel: the("print-cancel") }, (text) => this.announce(text));
        this.hands = new Hands(this.view, (pages) => this.goTo(this.page + pages));
        this.thumbs = new Thumbs(the("thumbs"), the("thumbs-all"), smalls, (page) => this.goTo(page),
            (page) => this.pick(page));
        this.keeping = new Keeping(the("keep"));
        App.fillTexts();
        this.listen();
        this.listenForFiles();
        this.fold();
        this.render();
        this.restore();
        this.embedding = new Embedding((files) => this.open(files));
    }

    /** Opens again what was open before the page was loaded again. */
    async restore() {
        const files = await this.keeping.restored();
        const { shown, pages } = this.keeping.noted();
        const { fax, faxes } = this;
        const before = faxes.length;
        if (files.length > 0) {
            this.open(files);
            faxes.slice(before).forEach((it, index) => {
                it.at = pages[index] || 0;
            });
            this.show(fax ?? faxes[shown] ?? faxes[0]);
        }
    }

    /** Puts the words into the page, which has none of its own. */
    static fillTexts() {
        const texts = /** @type {Record<string, string>} */ (TEXTS.page);
        document.querySelectorAll("[data-text]").forEach((element) => {
            element.textContent = texts[/** @type {HTMLElement} */ (element).dataset.text ?? ""];
        });
        the("chosen").placeholder = TEXTS.printing.all;
        the("filter").placeholder = TEXTS.files.part;
        the("keep").title = the("keep").parentElement.title = TEXTS.keeping;
        the("zoom").title = TEXTS.page.zoom;
        document.querySelectorAll("[data-label]").forEach((element) => {
            const label = texts[/** @type {HTMLElement} */ (element).dataset.label ?? ""];
            element.setAttribute("aria-label", label);
            // Who sees a sign alone, or a short word, is told by the mouse what it means.
            if (element.localName === "button" || element.localName === "input") {
                element.setAttribute("title", label);
            }
        });
    }

    /** What buttons do. */
    listen() {
        const on = (/** @type {string} */ id, /** @type {() => void} */ does) =>
            the(id).addEventListener("click", does);
        on("before", () => this.goTo(this.page - 1));
        on("next", () => this.goTo(this.page + 1));
        on("smaller", () => this.view.zoomBy(-1));
        on("larger", () => this.view.zoomBy(1));
        on("whole", () => this.view.setZoom("whole"));
        on("wide", () => this.view.setZoom("wide"));
        on("left", () => this.view.turn(-1));
        on("right", () => this.view.turn(1));
        on("full", () => this.fill());
        on("copy", () => this.copy());
        on("print", () => this.print());
        on("marks", () => this.toggleMarks());
        on("invert", () => this.invert());
        on("damaged", () => this.nextDamaged());
        on("stop", () => this.fax?.stop());
        on("notes", () => this.lookForNotes());
        on("bare-open", () => this.askForBare());
        on("again", () => this.fax?.read());
        on("close", () => this.close());
        the("report").addEventListener("toggle", () => this.renderReport());
        the("page").addEventListener("change", () => {
            this.goTo(the("page").valueAsNumber - 1);
            the("page").value = sayPage(this.page);
        });
        the("zoom").addEventListener("change", () => this.setPercent());
        the("chosen").addEventListener("input", () => this.changed());
        for (const [id, does] of /** @type {[string, () => void][]} */ (
            [["bare", () => this.readBare()], ["save", () => this.save()]])) {
            the(id).addEventListener("submit", (/** @type {Event} */ event) => {
                event.preventDefault();
                does();
            });
        }
        document.addEventListener("keydown", (event) => this.key(event));
        this.listenForReloads();
    }

    /** What is kept over a reload: files, where that is wanted, and which one is shown at which page. */
    listenForReloads() {
        the("keep").addEventListener("change", () => this.keeping.change(this.faxes));
        addEventListener("pagehide", () => {
            const kept = this.faxes.filter((fax) => this.keeping.has(fax));
            this.keeping.note({ shown: kept.findIndex((fax) => fax === this.fax), pages: kept.map(({ at }) => at) });
        });
    }

    /** On a narrow screen, or one that shows all large, what is not the page is folded: the page comes first. */
    fold() {
        const narrow = matchMedia(App.NARROW);
        const set = () => {
            the("more").open = !narrow.matches;
        };
        narrow.addEventListener("change", set);
        set();
    }

    /** Files that are chosen, dropped or pasted, and folders of them. */
    listenForFiles() {
        for (const id of ["choose", "folder"]) {
            the(id).addEventListener("change", () => {
                const files = [...the(id).files];
                this.open(id === "folder" ? Gathering.ofFolder(files) : files);
                the(id).value = "";
            });
        }
        document.addEventListener("paste", (event) => this.open([...(event.clipboardData?.files ?? [])]));
        for (const name of ["dragover", "dragenter", "dragleave", "drop"]) {
            document.addEventListener(name, (event) => {
                event.preventDefault();
                document.body.classList.toggle("dropping", name === "dragover" || name === "dragenter");
                const dropped = /** @type {DragEvent} */ (event).dataTransfer;
                if (name === "drop" && dropped) {
                    Gathering.dropped(dropped).then((files) => this.open(files), () => this.refuseFolder());
                }
            });
        }
    }

    /** A folder was dropped, and the browser does not hand it out. */
    refuseFolder() {
        the("refused").textContent = TEXTS.announce.noFolder;
        the("folder").focus();
    }

    /** @param {File[]} files */
    open(files) {
        the("refused").textContent = "";
        const faxes = files.map((file) => new Fax(file, () => this.changed(), (fax) => this.take(fax)));
        this.faxes.push(...faxes);
        if (faxes.length > 0) {
            // Its worker starts while the page is laid out.
            this.fax = faxes[0];
            this.startNext();
            this.show(faxes[0]);
            this.announce(say(TEXTS.announce.opened, faxes.map((fax) => sayName(fax.file.name)).join(", ")));
        }
    }

    /** Keeps a file that was taken in; closes one that is open already with the same bytes, and shows that one.
     * @param {Fax} fax */
    take(fax) {
        const twin = fax.reading === 1 && this.faxes.find((it) => it !== fax && it.isTwinOf(fax));
        if (!twin) {
            this.keeping.keep(fax);
        } else {
            this.faxes.splice(this.faxes.indexOf(fax), 1);
            fax.close();
            if (this.fax === fax) {
                this.show(twin);
            }
        }
    }

    /** Starts files that wait, while there is room; and ends workers that have nothing to do. */
    startNext() {
        const reading = this.faxes.filter((fax) => fax.isBusy() && fax.state !== "waits").length;
        const waiting = this.faxes.filter((fax) => fax.state === "waits");
        waiting.sort((one, other) => Number(other === this.fax) - Number(one === this.fax));
        for (const fax of waiting.slice(0, Math.max(0, App.READERS - reading))) {
            fax.read();
        }
        const idle = this.faxes.filter((fax) => fax !== this.fax && !fax.isBusy() && fax.life.isIdle());
        for (const fax of idle.slice(0, Math.max(0, idle.length - App.WORKERS))) {
            fax.life.end();
        }
    }

    /** Shows a file at once, so that no button that is seen is another file's, at the page that was looked at last.
     * @param {Fax | null} fax */
    show(fax) {
        this.fax = fax;
        the("bare-said").textContent = "";
        this.choosing.clear();
        this.printing.tell("");
        this.render();
        this.changed();
    }

    close() {
        const { fax } = this;
        if (fax) {
            fax.close();
            this.keeping.forget(fax.number);
            const at = this.faxes.indexOf(fax);
            this.faxes.splice(at, 1);
            this.show(this.faxes[Math.min(at, this.faxes.length - 1)] ?? null);
            this.announce(say(TEXTS.announce.closed, sayName(fax.file.name)));
            this.startNext();
            (this.fax ? the("close") : the("choose")).focus();
        }
    }

    closeAll() {
        const { faxes } = this;
        this.faxes = [];
        faxes.forEach((fax) => {
            fax.close();
            this.keeping.forget(fax.number);
        });
        this.show(null);
        this.announce(say(TEXTS.announce.closed, sayCount(faxes.length, "file")));
    }

    /** The page that is shown: a file that was read anew may have fewer than before. */
    get page() {
        const { fax } = this;
        return !fax ? 0 : fax.isBusy() ? fax.at : Math.max(0, Math.min(fax.at, fax.pages - 1));
    }

    /** @param {string} text */
    announce(text) {
        the("said").textContent = text;
    }

    /** Says what was done aloud, and shows it for a while.
     * @param {string} text */
    notify(text) {
        this.announce(text);
        the("seen").textContent = text;
        clearTimeout(this.noticed);
        this.noticed = setTimeout(() => {
            the("seen").textContent = "";
        }, App.SEEN);
    }

    /** Goes to a page, and to a row of it.
     * @param {number} page @param {number} [row] */
    goTo(page, row) {
        const last = Math.max(0, (this.fax?.pages ?? 0) - 1);
        const wanted = Number.isInteger(page) ? Math.max(0, Math.min(last, page)) : this.page;
        const hasMoved = wanted !== this.page;
        if (this.fax) {
            this.fax.at = wanted;
        }
        this.render();
        if (row === undefined) {
            this.view.toTop();
        } else {
            this.view.goTo(row);
        }
        if (hasMoved && this.fax) {
            this.announce(say(TEXTS.announce.page, sayPage(wanted), this.fax.sayState(wanted)));
        }
    }

    /** The reader has scrolled to another page.
     * @param {number} page */
    follow(page) {
        if (this.fax) {
            this.fax.at = page;
            this.changed();
        }
    }

    lookForNotes() {
        const { fax } = this;
        if (fax) {
            fax.move("checks");
            fax.ask("notes", {}).catch(() => fax.isBusy() && fax.move("left"));
        }
    }

    /** Shows what has changed before the next picture is painted; or soon, where none is painted. The first page of a
     * file is shown at once. */
    changed() {
        if (this.fax?.form(this.page) && this.view.fax === this.fax && !this.view.form) {
            this.render();
        } else if (!this.isDue) {
            this.isDue = true;
            setTimeout(() => {
                this.isDue = false;
                this.startNext();
                this.render();
            }, 50);
        }
    }

    render() {
        const { fax } = this;
        the("welcome").hidden = Boolean(fax);
        the("fax").hidden = !fax;
        document.title = fax ? `${sayName(fax.file.name)}: ${TEXTS.title}` : TEXTS.title;
        this.files.render(this.faxes, fax);
        if (fax) {
            this.renderAbout(fax);
            if (this.findings.show(fax)) {
                this.view.mark();
                this.renderReport();
            }
            this.renderPage(fax);
        }
        // The page is laid out beside those in small, and is asked for before them.
        this.thumbs.lay(fax);
        this.view.show(fax, this.page);
        this.thumbs.show(fax, this.page, this.picked(fax));
        this.renderZoom();
        this.makings.show(fax);
        this.settle(fax);
    }

    /** The pages that are named to be printed or saved.
     * @param {Fax | null} fax */
    picked(fax) {
        return new Set(fax && this.choosing.field.value.trim() ? this.choosing.of(fax).pages : []);
    }

    /** Says aloud how a file is, once that is settled, and not at each step.
     * @param {Fax | null} fax */
    settle(fax) {
        const key = fax ? [fax.number, fax.reading, fax.state, fax.failure].join(" ") : "";
        if (fax && !fax.isBusy() && key !== this.settled) {
            this.announce(`${sayName(fax.file.name)}: ${fax.verdict()}`);
        }
        this.settled = fax?.isBusy() ? "" : key;
    }

    /** @param {Fax} fax */
    renderAbout(fax) {
        const put = (/** @type {string} */ id, /** @type {string} */ text) => {
            if (the(id).textContent !== text) {
                the(id).textContent = text;
            }
        };
        put("name", sayName(fax.file.name));
        put("verdict", fax.verdict());
        const isReading = fax.isBusy() && fax.state !== "waits";
        const state = fax.failure || fax.state !== "done" || fax.otherKind() ? "left" : fax.look();
        the("verdict").className = isReading ? "busy" : state;
        the("progress").hidden = !isReading;
        if (isReading && fax.state === "reads" && fax.pages > 0) {
            the("progress").max = fax.pages;
            the("progress").value = fax.page;
        } else {
            the("progress").removeAttribute("value");
        }
        the("stop").hidden = !isReading;
        the("notes").hidden = !fax.isLong;
        the("again").hidden = !fax.failure && fax.state !== "left";
        the("damaged").hidden = !this.faxes.some((it) => it !== fax && Files.isLossy(it));
        this.renderOffers(fax);
        this.renderBare(fax);
    }

    /** Offers what can be done, and nothing else.
     * @param {Fax} fax */
    renderOffers(fax) {
        const isReady = !fax.isBusy() && fax.listed > 0;
        const hasWhole = fax.listed > fax.lost.size;
        const { kind } = the("save").elements;
        the("save").hidden = the("printer").hidden = !isReady;
        the("marks").hidden = fax.lost.size === 0;
        the("copy").disabled = !fax.form(this.page);
        the("copy").hidden = !("ClipboardItem" in window);
        the("full").hidden = !document.fullscreenEnabled;
        for (const option of kind.options) {
            option.disabled = /^(tiff.|pbm)$/.test(option.value) && !hasWhole;
        }
        if (kind.selectedOptions[0]?.disabled) {
            kind.value = "pdf";
        }
    }

    /** Says how bare data are read, and asks for that where they are not read as a fax.
     * @param {Fax} fax */
    renderBare(fax) {
        const { coded, told } = fax;
        const isTold = told?.kind === "bare" && coded !== null;
        const isUnknown = fax.state === "done" && fax.pages === 0 && fax.file.size > 0 &&
            (fax.end?.kind?.name ?? "text") === "text";
        const mayBeBare = isUnknown && ["ByteOrder", "ShortHeader", "Magic"].includes(fax.end?.name);
        const isAsked = isTold || Boolean(mayBeBare && fax.isBare);
        the("taken").textContent = !isTold || told.rows === 0 ? "" : fax.isGuessed
            ? say(TEXTS.bare.guessed, TEXTS.codings[coded.coding], coded.width, TEXTS.page.bare)
            : say(TEXTS.bare.said, TEXTS.codings[coded.coding], coded.width);
        the("bare-part").hidden = !isAsked;
        the("bare-open").hidden = isAsked || !mayBeBare;
        const key = `${fax.number} ${fax.reading} ${isTold}`;
        if (isAsked && this.asked !== key) {
            this.asked = key;
            the("bare-part").open ||= !isTold || told.rows === 0;
            this.fillBare(coded);
        }
    }

    /** Fills the form in with how data are read.
     * @param {Bare | null} coded */
    fillBare(coded) {
        const { elements } = the("bare");
        if (coded) {
            for (const name of /** @type {const} */ (["width", "rows", "coding", "order"])) {
                elements[name].value = String(coded[name]);
            }
            elements.eols.checked = coded.hasEols;
            elements.aligned.checked = coded.isAligned;
            elements.fine.value = coded.isFine === false ? "0" : "1";
        }
    }

    /** The report as text, where it is asked for: as much of it as can be looked through. */
    renderReport() {
        const text = this.fax && the("report").open ? this.fax.text() : "";
        the("report-text").textContent = text.length > App.MOST_REPORT
            ? `${text.slice(0, App.MOST_REPORT)}\n${TEXTS.findings.reportGoesOn}` : text;
    }

    /** @param {Fax} fax */
    renderPage(fax) {
        const form = fax.form(this.page);
        const texts = TEXTS.pages;
        the("view-part").hidden = fax.pages === 0;
        if (document.activeElement !== the("page")) {
            the("page").value = sayPage(this.page);
        }
        the("page").max = String(Math.max(1, fax.pages));
        the("of").textContent = say(texts.of, fax.pages);
        the("before").disabled = this.page === 0;
        the("next").disabled = this.page >= fax.pages - 1;
        const resolution = form && form.across > 0 && form.down > 0 && TEXTS.units[form.unit]
            ? say(texts.resolution, Math.round(form.across), Math.round(form.down), TEXTS.units[form.unit])
            : texts.noResolution;
        the("form").textContent = form
            ? say(texts.form, form.width, form.rows, TEXTS.codings[form.coding], resolution)
            : fax.pages > 0 ? say(TEXTS.findings.page, sayPage(this.page)) : "";
    }

    /** Opens the form for bare data, and goes to it. */
    askForBare() {
        if (this.fax) {
            this.fax.isBare = true;
            this.render();
            the("bare-part").open = true;
            the("bare").elements.coding.focus();
        }
    }

    readBare() {
        const words = new FormData(the("bare"));
        const number = (/** @type {string} */ name) => Number(words.get(name));
        const bare = { width: number("width"), rows: number("rows"), coding: number("coding"), order: number("order"),
            hasEols: number("coding") === Library.MMR || number("coding") === Library.MR || words.has("eols"),
            isAligned: words.has("aligned"), isFine: words.get("fine") === "1" };
        const isRight = Number.isInteger(bare.width) && bare.width >= 1 && bare.width <= 65535 &&
            Number.isInteger(bare.rows) && bare.rows >= 0 && bare.rows <= 1000000;
        the("bare-said").textContent = isRight ? "" : TEXTS.bare.refused;
        if (isRight && this.fax) {
            this.fax.coded = bare;
            this.fax.isGuessed = false;
            this.fax.at = 0;
            this.fax.read();
        }
    }

    /** The pages that are meant to be printed or saved; where what is named is none, that is said.
     * @param {Fax} fax */
    chosen(fax) {
        const { pages, isSome } = this.choosing.of(fax);
        const said = pages ? "" : say(TEXTS.printing.refused, fax.pages);
        this.printing.tell(said);
        if (said) {
            this.announce(said);
        }
        return { pages, isSome };
    }

    save() {
        const { fax } = this;
        if (fax) {
            const { kind } = the("save").elements;
            const { pages, isSome } = this.chosen(fax);
            if (pages) {
                this.makings.make(fax, kind.value, this.page, isSome ? pages : null);
            }
        }
    }

    /** Adds a page to those that are meant to be printed or saved, or takes it away.
     * @param {number} page */
    pick(page) {
        if (this.fax) {
            this.choosing.toggle(this.fax, page);
            this.render();
        }
    }

    /** Puts the page onto the clipboard, as a picture. */
    async copy() {
        const { fax, page } = this;
        if (!fax?.form(page)) {
            return;
        }
        const texts = TEXTS.copying;
        try {
            const picture = fax.ask("save", { kind: "png", pages: [page], coding: 0, turns: [fax.turnsOf(page)] });
            await navigator.clipboard.write([new ClipboardItem({ "image/png": picture })]);
            this.notify(say(texts.copied, sayPage(page)));
        } catch (error) {
            const isRefused = error instanceof DOMException;
            this.notify(say(texts.failed, sayPage(page), isRefused ? TEXTS.errors.clipboard : sayError(error)));
        }
    }

    /** Shows the page on the whole screen, and back. */
    fill() {
        (document.fullscreenElement ? document.exitFullscreen() : the("view-part").requestFullscreen()).catch(
            () => this.notify(TEXTS.errors.fullScreen));
    }

    /** Goes to the next file that is damaged, and from the last to the first. */
    nextDamaged() {
        const at = this.fax ? this.faxes.indexOf(this.fax) + 1 : 0;
        const next = [...this.faxes.slice(at), ...this.faxes.slice(0, at)].find(Files.isLossy);
        if (next) {
            this.show(next);
            this.announce(`${sayName(next.file.name)}: ${next.verdict()}`);
        } else {
            this.notify(TEXTS.announce.noneDamaged);
        }
    }

    /** Prints all pages, or those that are named beside the button. */
    print() {
        const { fax } = this;
        if (!fax || fax.isBusy() || fax.listed === 0) {
            return;
        }
        const { pages } = this.chosen(fax);
        if (pages) {
            this.printing.print(fax, pages);
        }
    }

    /** Shows white black, and black white, or as it is again; what is printed and saved stays as it is. */
    invert() {
        this.view.setInverted(!this.view.isInverted);
        the("invert").setAttribute("aria-pressed", String(this.view.isInverted));
    }

    /** Shows how large the page is, but not while somebody types it. */
    renderZoom() {
        if (document.activeElement !== the("zoom")) {
            the("zoom").value = `${this.view.percent}%`;
        }
    }

    /** Makes the page as large as is typed: 150, or 150%. */
    setPercent() {
        const [, number] = /^\s*(\d+(?:[.,]\d+)?)\s*%?\s*$/.exec(the("zoom").value) ?? [];
        const percent = Number(number?.replace(",", "."));
        if (percent > 0) {
            this.view.setPercent(percent);
        }
        the("zoom").value = `${this.view.percent}%`;
    }

    /** Says all in the language that was chosen. What was said of the past, in another one, goes. */
    retell() {
        App.fillTexts();
        for (const id of ["refused", "bare-said", "all-said", "printing", "seen", "said"]) {
            the(id).textContent = "";
        }
        this.findings.forget();
        this.makings.forget();
        this.render();
        this.renderReport();
        this.view.mark();
    }

    /** Shows the marks beside the page, or hides them. */
    toggleMarks() {
        this.view.setMarks(!this.view.hasMarks);
        the("marks").setAttribute("aria-pressed", String(this.view.hasMarks));
    }

    /** Saves each file as a PDF, one after another. */
    async saveAll() {
        const faxes = this.faxes.filter((fax) => fax.listed > 0 && !fax.isBusy());
        the("save-all").disabled = true;
        let done = 0;
        for (const [at, fax] of faxes.entries()) {
            the("all-said").textContent = say(TEXTS.saving.all, at + 1, faxes.length, sayName(fax.file.name));
            await this.makings.make(fax, "pdf", 0, null);
            done += fax.making?.state === "ready" ? 1 : 0;
        }
        the("all-said").textContent = say(TEXTS.saving.allDone, done, faxes.length);
        this.announce(the("all-said").textContent);
        this.changed();
    }

    /** @param {KeyboardEvent} event */
    key(event) {
        const target = /** @type {HTMLElement} */ (event.target);
        if ((event.ctrlKey || event.metaKey) && !event.altKey && !event.shiftKey && event.key === "p" && this.fax) {
            event.preventDefault();
            this.print();
            return;
        }
        if (event.ctrlKey || event.metaKey || event.altKey || target.closest("input, select, textarea")) {
            return;
        }
        if (event.key.length === 1 && !the("letters").checked) {
            return;
        }
        if (event.key === "o") {
            event.preventDefault();
            the("choose").click();
            return;
        }
        const does = this.fax && (this.keys()[event.key] ?? (target.closest("#thumbs") && this.listKeys()[event.key]));
        if (does) {
            event.preventDefault();
            does();
        } else if (this.fax && !target.closest("#about, button, a, summary") &&
                this.hands.key(event.key, event.shiftKey)) {
            event.preventDefault();
        }
    }

    /** Keys of the list of pages.
     * @returns {Record<string, () => void>} */
    listKeys() {
        return {
            ArrowDown: () => this.goTo(this.page + 1), ArrowUp: () => this.goTo(this.page - 1),
            PageDown: () => this.goTo(this.page + 10), PageUp: () => this.goTo(this.page - 10),
        };
    }

    /** @returns {Record<string, () => void>} */
    keys() {
        const { view } = this;
        const last = (this.fax?.pages ?? 1) - 1;
        return {
            n: () => this.goTo(this.page + 1), p: () => this.goTo(this.page - 1),
            Home: () => this.goTo(0), End: () => this.goTo(last),
            "+": () => view.zoomBy(1), "=": () => view.zoomBy(1), "-": () => view.zoomBy(-1),
            0: () => view.setZoom("whole"), w: () => view.setZoom("wide"), 1: () => view.setZoom(1 / devicePixelRatio),
            r: () => view.turn(1), l: () => view.turn(-1), f: () => this.nextFinding(), d: () => this.nextDamaged(),
            c: () => this.copy(), s: () => this.fill(), m: () => this.toggleMarks(), i: () => this.invert(),
        };
    }

    /** Goes to the next place where something is wrong, and from the last to the first. */
    nextFinding() {
        const fax = /** @type {Fax} */ (this.fax);
        const { found } = fax.findings(Findings.MOST);
        const { last } = fax;
        const after = found.findIndex(({ page, row }) => !last || page > last.page ||
            (page === last.page && row > last.row));
        const next = found[Math.max(0, after)];
        if (next) {
            fax.last = { page: next.page, row: next.row };
            this.goTo(next.page, next.row);
            this.view.mark();
        }
    }

    /** Goes to what is chosen in the list of what is wrong; on a narrow screen that list stands before the page.
     * @param {number} page @param {number} row */
    goToFinding(page, row) {
        if (matchMedia(App.NARROW).matches) {
            the("more").open = false;
        }
        if (this.fax) {
            this.fax.last = { page, row };
        }
        this.goTo(page, row);
        this.view.mark();
    }
}

const app = new App();
