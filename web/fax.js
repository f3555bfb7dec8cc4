"use strict";

/** What is known of a file that is read. */
class Known {
    constructor() {
        /** @type {(Uint32Array | undefined)[]} */
        this.forms = [];
        /** @type {Map<number, { name: string, fault: Fault, kind: Kind | null, isEmpty: boolean }>} */
        this.refused = new Map();
        /** How many pages have a form, and how many are pictures of other kinds. */
        this.listed = 0;
        this.others = 0;
        /** @type {Map<number, LostRows>} */
        this.lost = new Map();
        /** How many rows are lost, how much of the worst page, and the pages of which most are. */
        this.lostRows = 0;
        /** @type {"whole" | "slight" | "part" | "most"} */
        this.worst = "whole";
        this.mostly = { pages: /** @type {number[]} */ ([]), lost: 0, rows: 0 };
        /** Pages of which all rows are found, though a fault says that the file was cut, and that fault.
         * @type {Map<number, string>} */
        this.cut = new Map();
        /** Pages of which the receiver says that rows were bad: how many, if it says so, and whether they are left so.
         * @type {Map<number, { bad: number | null, isLeft: boolean }>} */
        this.received = new Map();
        /** @type {Map<number, { strip: number, kind: number, name: string }[]>} */
        this.notes = new Map();
        this.state = "waits";
        this.pages = 0;
        this.page = 0;
        this.rows = 0;
        /** @type {any} */
        this.end = null;
        /** @type {any} */
        this.report = null;
        /** @type {any} */
        this.told = null;
        this.isLong = false;
        /** Why it cannot be read, or not any more.
         * @type {Failed | null} */
        this.broke = null;
    }
}

/** The stretches of a page's rows that are lost, three numbers each, and the names of their faults. */
class LostRows {
    /** @param {Uint32Array} numbers @param {Record<number, string>} names */
    constructor(numbers, names) {
        this.numbers = numbers;
        this.names = names;
        this.rows = numbers.reduce((sum, number, index) => sum + (index % 3 === 1 ? number : 0), 0);
    }

    get count() {
        return this.numbers.length / 3;
    }

    /** The first stretches, as many as are asked for.
     * @param {number} most @returns {{ from: number, to: number, name: string }[]} */
    stretches(most) {
        return Array.from({ length: Math.min(most, this.count) }, (_, at) => {
            const [from, count, fault] = this.numbers.subarray(3 * at, 3 * at + 3);
            return { from, to: from + count - 1, name: this.names[fault] };
        });
    }
}

/**
 * A file that is open: what is known of it, and the worker that reads it. Pages and rows are numbered from 0, as the
 * program numbers them.
 *
 * @typedef {{ page: number, row: number, head: string, name: string, tag: number, isLost?: boolean,
 *     isEnd?: boolean, isCut?: boolean }} Finding whose head does not name the page; whether rows are lost there, or
 *     the file ends, or is cut where no row is lost
 */
class Fax extends Known {
    /** The classes that a worker is made of. */
    static WORKER = [
        Library, Writing, Cursor, Form, Left, Salvaging, Kinds, Reading, Drawing, Shrunk, Cells, Turning, Pdf, Png,
        Rows, Saving, Importing, Wrapping, Guessing, Broken, FaxWorker,
    ];
    static ids = 0;

    /** @param {File} file @param {(fax: Fax) => void} changed
     * @param {(fax: Fax) => void} [taken] each time that it was taken in to be read */
    constructor(file, changed, taken = () => {}) {
        super();
        this.taken = taken;
        this.file = file;
        this.changed = changed;
        this.number = ++Fax.ids;
        this.life = new Life(Fax.parts.place, {
            again: () => this.again(), told: (event) => this.take(event), failed: (error) => this.fail(error),
            rests: () => this.changed(this),
        });
        /** The page that is looked at, which is gone back to with the file, and the finding that was gone to last.
         * @type {number} */
        this.at = 0;
        /** @type {{ page: number, row: number } | null} */
        this.last = null;
        /** By how many quarters pages are turned.
         * @type {Map<number, number>} */
        this.turns = new Map();
        /** Which reading of the file it is that is known: an answer of an earlier one is nobody's. */
        this.reading = 0;
        this.seen = "";
        /** A sum of the bytes of the file, once they were taken in.
         * @type {number | null} */
        this.sum = null;
        this.wasChanged = false;
        /** What is made of it, for who saves it.
         * @type {Making | null} */
        this.making = null;
        /** @type {Bare | null} */
        this.coded = null;
        /** Whether it was guessed how they are coded, and not said. */
        this.isGuessed = false;
        /** Whether somebody said that it is bare data, or its name does. */
        this.isBare = Guessing.NAMES.test(file.name);
    }

    /** What workers are made of: their text, as an address that a page from `file:` can hand over too, and the bytes
     * of the library. */
    static parts = (() => {
        const text = `"use strict";\n${Fax.WORKER.map(String).join("\n")}\nnew FaxWorker(self);\n`;
        const letters = atob(FAXPAGES_WASM);
        const bytes = new Uint8Array(letters.length);
        for (let at = 0; at < bytes.length; at++) {
            bytes[at] = letters.charCodeAt(at);
        }
        return { place: URL.createObjectURL(new Blob([text], { type: "text/javascript" })), wasm: bytes.buffer };
    })();

    /** Reads the file, as if nothing was known of it. */
    read(wasChanged = false) {
        this.wasChanged = wasChanged;
        Object.assign(this, new Known());
        this.coded = this.isGuessed ? null : this.coded;
        this.setMaking(null);
        this.reading++;
        this.seen = this.looks();
        this.state = "opens";
        this.life.open({ wasm: Fax.parts.wasm, file: this.file, bare: this.coded, reads: true, sum: null });
        this.changed(this);
    }

    /** What a browser says of a file that is changed on the disk. */
    looks() {
        return `${this.file.size} ${this.file.lastModified}`;
    }

    /** Has the file be taken in again for calls: read anew, if it is not as it was. */
    again() {
        if (this.seen === this.looks()) {
            this.life.open({ wasm: Fax.parts.wasm, file: this.file, bare: this.coded, reads: false, sum: this.sum });
        } else {
            this.read(true);
        }
    }

    /** @param {Failed} error */
    fail(error) {
        if (error.kind === "changed" && !this.isBusy()) {
            this.read(true);
            return;
        }
        this.broke = error;
        this.state = this.isBusy() ? "failed" : this.state;
        this.changed(this);
    }

    /** Why it cannot be read, in words; nothing where it can. */
    get failure() {
        const texts = /** @type {Record<string, string>} */ (TEXTS.broken);
        return this.broke ? say(texts[this.broke.kind] ?? texts.ended, sayError(this.broke)) : "";
    }

    /** Asks the worker, which is started where there is none.
     * @param {string} call @param {object} words @param {Function} [tell] @returns {Promise<any>} */
    ask(call, words, tell) {
        return this.life.call(call, words, tell);
    }

    /** @param {Making | null} making */
    setMaking(making) {
        this.making?.drop();
        this.making = making;
    }

    /** Forgets the file: nothing of it is asked for any more. */
    close() {
        this.life.close();
        this.setMaking(null);
    }

    /** Stops reading. */
    stop() {
        this.life.end();
        if (this.isBusy()) {
            this.state = "left";
            this.changed(this);
        }
    }

    isBusy() {
        return ["waits", "opens", "lists", "reads", "checks"].includes(this.state);
    }

    /** @param {any} data */
    take(data) {
        const name = `on${data.event[0].toUpperCase()}${data.event.slice(1)}`;
        this[/** @type {"onWalked"} */ (name)](data);
    }

    /** Whether it is the same file, which was opened before: of the same name, size and time, and with the same bytes.
     * @param {Fax} other */
    isTwinOf(other) {
        const isSame = this.file.name === other.file.name && this.looks() === other.looks() && this.sum === other.sum;
        return isSame && this.number < other.number && !this.failure && this.sum !== null;
    }

    /** @param {any} data */
    onOpened({ sum }) {
        this.sum = sum;
        if (this.state === "opens") {
            this.move("lists");
            this.taken(this);
        }
    }

    /** @param {string} state */
    move(state) {
        this.state = state;
        this.changed(this);
    }

    onTooLarge() {
        this.move("tooLarge");
    }

    /** @param {any} data */
    onImages({ told }) {
        this.told = told && { kind: "images", ...told };
        if (told) {
            this.move("done");
        }
    }

    /** @param {any} data */
    onBare({ told, coded, isGuessed }) {
        this.told = { kind: "bare", ...told };
        this.coded = coded;
        this.isGuessed = isGuessed;
        if (told.rows === 0) {
            this.move("done");
        }
    }

    /** @param {{ page: number, numbers: Uint32Array }} data */
    onForms({ page, numbers }) {
        for (let at = 0; at < numbers.length; at += Library.FORM_NUMBERS) {
            this.listed++;
            this.forms[page++] = numbers.subarray(at, at + Library.FORM_NUMBERS);
        }
        this.pages = page;
        this.changed(this);
    }

    /** @param {{ fault: Fault, name: string, kind: Kind | null, isEmpty: boolean }} data */
    onRefused({ fault, name, kind, isEmpty }) {
        this.refused.set(fault.page, { name, fault, kind, isEmpty });
        this.others += kind ? 1 : 0;
        this.pages = fault.page + 1;
        this.changed(this);
    }

    /** @param {any} data */
    onListed({ fault, name, kind }) {
        this.end = fault && { fault, name, kind };
        this.move("reads");
    }

    /** @param {any} data */
    onLost({ page, stretches, names, name }) {
        const lost = new LostRows(stretches, names);
        if (lost.count === 0) {
            this.cut.set(page, name);
        } else {
            this.lost.set(page, lost);
            this.count(page, lost.rows);
        }
        this.changed(this);
    }

    /** Counts the rows of a page that are lost.
     * @param {number} page @param {number} lost */
    count(page, lost) {
        const rows = this.form(page)?.rows ?? lost;
        const levels = /** @type {const} */ (["whole", "slight", "part", "most"]);
        const level = Missing.level(lost, rows);
        this.lostRows += lost;
        this.worst = levels[Math.max(levels.indexOf(this.worst), levels.indexOf(level))];
        if (level === "most") {
            this.mostly.pages.push(page);
            this.mostly.lost += lost;
            this.mostly.rows += rows;
        }
    }

    /** @param {any} data */
    onReceived({ page, bad, isLeft }) {
        this.received.set(page, { bad, isLeft });
        this.changed(this);
    }

    /** @param {any} data */
    onWalking({ page, rows }) {
        this.page = page;
        this.rows = rows;
        this.changed(this);
    }

    /** @param {any} data */
    onWalked(data) {
        this.onWalking(data);
        this.page = this.pages;
        this.move("checks");
    }

    onUnchecked() {
        this.isLong = true;
        this.move("done");
    }

    /** @param {any} data */
    onChecked({ notes, count, pages, rows, fault, name, kinds }) {
        for (let at = 0; at < notes.length; at += 3) {
            const [page, strip, kind] = notes.subarray(at, at + 3);
            const all = this.notes.get(page) ?? [];
            all.push({ strip, kind, name: kinds.get(kind) });
            this.notes.set(page, all);
        }
        this.isLong = false;
        this.report = { pages, rows, count, fault: fault.number ? { ...fault, name } : null };
        this.move("done");
    }

    /** @param {number} page @returns {Form | null} */
    form(page) {
        const numbers = this.forms[page];
        return numbers ? new Form(numbers) : null;
    }

    /** By how many quarters a page is turned to the right.
     * @param {number} page */
    turnsOf(page) {
        return this.turns.get(page) ?? 0;
    }

    /** The pages that were read wholly. */
    wholePages() {
        const read = this.state === "left" ? this.page : this.pages;
        return Array.from({ length: read }, (_, page) => page).filter(
            (page) => this.forms[page] && !this.lost.has(page));
    }

    /** The pages that can be shown, damaged ones too. */
    shownPages() {
        const read = this.state === "left" ? this.page : this.pages;
        return Array.from({ length: read }, (_, page) => page).filter((page) => this.forms[page]);
    }

    /** Whether all that was read so far is whole. */
    isWhole() {
        return this.pages > 0 && !this.lost.size && !this.refused.size && !this.end && !this.told?.name;
    }

    /** What the file is, where it has nothing but pictures of other kinds, or is no fax at all.
     * @returns {Kind | null} */
    otherKind() {
        const isOther = this.listed === 0 && !this.told && this.state === "done" && this.others === this.pages;
        return !isOther ? null : this.pages ? this.refused.get(0)?.kind ?? null : this.end?.kind ?? null;
    }

    /** How the file looks in the list, and its verdict. */
    look() {
        const isDamaged = this.refused.size > this.others || this.told?.isOpen || this.told?.rows === 0 ||
            (this.end && this.end.name !== "DirectoryLoop") || ["part", "most"].includes(this.worst);
        return isDamaged || this.pages === 0 ? "damaged" : !this.isWhole() ? "slight"
            : this.received.size > 0 ? "mended" : "whole";
    }

    /** What a page is like.
     * @param {number} page @returns {"other" | "refused" | "whole" | "mended" | "slight" | "part" | "most"} */
    stateOf(page) {
        const refused = this.refused.get(page);
        const level = Missing.level(this.lost.get(page)?.rows ?? 0, this.form(page)?.rows ?? 1);
        return refused ? (refused.kind ? "other" : "refused")
            : level === "whole" && this.received.has(page) ? "mended" : level;
    }

    /** The same in words.
     * @param {number} page */
    sayState(page) {
        const state = this.stateOf(page);
        const lost = this.lost.get(page);
        return lost ? say(TEXTS.pages[state], sayCount(lost.rows, "row")) : TEXTS.pages[state];
    }

    /** What is wrong, or what is noted, page by page, and downwards: as many as are asked for, and how many there are.
     * @param {number} most @param {"fault" | "note"} [kind] */
    findings(most, kind = "fault") {
        const isFault = kind === "fault";
        const parts = isFault ? [this.refused, this.lost] : [this.cut, this.notes];
        const shown = [...this.notes.values()].reduce((count, notes) => count + notes.length, 0);
        // More notes may be counted than were told.
        let all = isFault ? 0 : Math.max(0, (this.report?.count ?? 0) - shown);
        /** @type {Finding[]} */
        const found = [];
        const pages = new Set(parts.flatMap((part) => [...part.keys()]));
        for (const page of [...pages].sort((one, other) => one - other)) {
            const here = found.length < most ? (isFault ? this.faultsOf(page, most) : this.notesOf(page)) : [];
            found.push(...here.slice(0, most - found.length));
            all += isFault ? Number(this.refused.has(page)) + (this.lost.get(page)?.count ?? 0)
                : Number(this.cut.has(page)) + (this.notes.get(page)?.length ?? 0);
        }
        if (isFault && this.end && !this.end.kind) {
            all++;
            found.push(...(found.length < most ? [this.endFinding()] : []));
        }
        return { found, all };
    }

    /** @returns {Finding} */
    endFinding() {
        const { fault, name } = this.end;
        return { page: Math.max(0, fault.page - 1), row: 0, name, tag: fault.tag, isEnd: true,
            head: fault.page === 0 ? TEXTS.findings.file : TEXTS.findings.chain };
    }

    /** What is wrong with a page: as many places as are asked for.
     * @param {number} page @param {number} most @returns {Finding[]} */
    faultsOf(page, most) {
        const refused = this.refused.get(page);
        const texts = TEXTS.findings;
        if (refused) {
            const head = refused.kind ? say(texts.otherPage, sayOfKind(refused.kind)[0]) : texts.page;
            return [{ page, row: 0, name: refused.name, tag: refused.fault.tag, head }];
        }
        return (this.lost.get(page)?.stretches(most) ?? []).map(({ from, to, name }) => ({
            page, row: from, name, tag: 0, isLost: true,
            head: from === to ? say(texts.row, from + 1) : say(texts.rows, from + 1, to + 1) }));
    }

    /** What is noted of a page.
     * @param {number} page @returns {Finding[]} */
    notesOf(page) {
        const texts = TEXTS.findings;
        const cut = this.cut.get(page);
        /** @type {Finding[]} */
        const found = cut === undefined ? []
            : [{ page, row: 0, name: cut, tag: 0, isCut: true, head: texts.cut }];
        return [...found, ...(this.notes.get(page) ?? []).map(({ strip, kind, name }) => {
            const isStrip = strip !== Library.NO_STRIP;
            return { page, row: isStrip ? strip * (this.form(page)?.rowsOfStrip ?? 0) : 0, tag: 0,
                name: isKnownNote(name) ? name : `N${kind} ${name}`,
                head: isStrip ? say(texts.strip, sayPage(strip)) : "" };
        })];
    }

    /** What is said of the whole file: that it cannot be read any more comes first. */
    verdict() {
        const parts = [this.failure && this.state !== "failed" ? say(TEXTS.broken.later, this.failure) : "",
            this.wasChanged && this.state !== "failed" ? TEXTS.broken.readAgain : "", this.readVerdict()];
        return parts.filter(Boolean).join(" ");
    }

    /** What was read says. */
    readVerdict() {
        const texts = TEXTS.verdicts;
        switch (this.state) {
            case "waits":
            case "opens": return TEXTS.files[this.state];
            case "tooLarge": return TEXTS.files.tooLarge;
            case "failed": return say(TEXTS.files.failed, this.failure);
            case "lists": return say(texts.lists, this.pages);
            case "left": return say(texts.left, sayPage(this.page), this.pages);
            case "reads":
            case "checks": return say(texts.reads, sayPage(Math.min(this.page, this.pages - 1)), this.pages, this.rows);
            default: return new Verdict(this).text();
        }
    }

    /** What no reader sees of the codings of damaged pages.
     * @returns {string[]} */
    unseen() {
        return [...new Set([...this.lost.keys()].map((page) => this.unseenOf(page)))];
    }

    /** The same of the coding of a page.
     * @param {number} page */
    unseenOf(page) {
        return /** @type {Record<number, string>} */ (TEXTS.findings.unseen)[this.form(page)?.coding ?? 0] ?? "";
    }

    /** The report as text. */
    text() {
        return this.textParts().join("");
    }

    /** The report as bytes, with all notes, also where there are so many that only the first ones are kept. */
    async textBlob() {
        const shown = [...this.notes.values()].reduce((count, notes) => count + notes.length, 0);
        const [head, notes, rest] = this.textParts();
        const all = (this.report?.count ?? 0) > shown ? await this.ask("noteLines", {}) : notes;
        return new Blob([head, all, rest], { type: "text/plain" });
    }

    /** The report in three parts, of which the second are the lines of notes: the lines of `faxpages list` and of
     * `faxpages check`, with what was lost, and what it means. It counts pages from 0, as these do. */
    textParts() {
        const faultLine = (/** @type {Fault} */ { page, row, tag }, /** @type {string} */ name) =>
            `fault page ${page} row ${row}: ${name}${tag ? ` ${tag}` : ""}`;
        const lines = Array.from({ length: this.pages }, (_, page) => {
            const refused = this.refused.get(page);
            return refused ? faultLine(refused.fault, refused.name) : this.form(page)?.line(page) ?? "";
        });
        lines.push(this.end ? faultLine(this.end.fault, this.end.name) : "end", "");
        const unseen = this.unseen().map((text) => `\n${text}`).join("");
        const said = `${this.file.name}\n${this.verdict()}${unseen}\n${TEXTS.findings.fromZero}`;
        const head = `${said}\n\n${lines.splice(0).join("\n")}\n`;
        const notes = [...this.notes].sort(([one], [other]) => one - other).map(([page, all]) => all.map(
            ({ strip, kind, name }) => FaxWorker.noteLine(page, strip, kind, name)).join(""));
        if (this.report) {
            const { pages, rows, fault } = this.report;
            lines.push(`pages ${pages} rows ${rows}`, ...(fault ? [faultLine(fault, fault.name)] : []));
        }
        lines.push("");
        for (const [page, lost] of [...this.lost].sort(([one], [other]) => one - other)) {
            for (const { from, to, name } of lost.stretches(Infinity)) {
                lines.push(`page ${page} rows ${from} to ${to}: ${name}`);
            }
        }
        return [head, notes.join(""), `${lines.join("\n")}\n`];
    }
}
