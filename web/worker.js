"use strict";

/** The file cannot be taken in. */
class Broken extends Error {
    /** @param {string} kind */
    constructor(kind) {
        super(kind);
        this.kind = kind;
    }
}

/**
 * Answers the calls of the page for one file: a worker has one of it.
 *
 * @typedef {{ module: WebAssembly.Module, library: Library, salvaging: Salvaging, drawing: Drawing }} Opened
 */
class FaxWorker {
    /** Bytes that are read from the file at once. */
    static PIECE = 1 << 20;
    /** So many notes are handed out; more are counted. */
    static NOTES = 20000;
    /** Where reading all rows took longer, in milliseconds, notes are looked for only where that is asked for. */
    static LONG = 5000;
    /** After a picture the next one is waited for so many milliseconds, and for many so long at a time. */
    static NEXT = 12;
    static MOMENT = 60;

    /** What kind of failure an error is, by its name.
     * @type {Record<string, string>} */
    static KINDS = {
        NotReadableError: "gone", NotFoundError: "gone", RangeError: "memory", CompileError: "policy",
    };

    /** @param {any} scope of the worker */
    constructor(scope) {
        this.scope = scope;
        /** @type {(() => void)[]} */
        this.waiting = [];
        /** When a picture was drawn last. */
        this.pictured = -FaxWorker.MOMENT;
        const set = /** @type {Opened} */ ({});
        /** These are set by `open`. */
        this.module = set.module;
        this.library = set.library;
        this.salvaging = set.salvaging;
        this.drawing = set.drawing;
        /** @type {() => void} */
        this.isReady = () => {};
        /** Once the file can be read. @type {Promise<void>} */
        this.ready = new Promise((/** @type {(value?: any) => void} */ resolve) => {
            this.isReady = resolve;
        });
        this.channel = new MessageChannel();
        this.channel.port1.onmessage = () => this.waiting.shift()?.();
        this.send = (/** @type {any} */ message, /** @type {Transferable[]} */ handed = []) =>
            this.scope.postMessage(message, handed);
        scope.onmessage = (/** @type {any} */ { data }) => this.answer(data);
    }

    /** Lets other calls in. Pictures come first: while some are asked for, what takes long waits for a moment.
     * @returns {Promise<void>} */
    pause = async () => {
        const until = performance.now() + FaxWorker.MOMENT;
        await this.turn();
        while (performance.now() < Math.min(until, this.pictured + FaxWorker.NEXT)) {
            await new Promise((resolve) => setTimeout(resolve, 1));
        }
    };

    /** Lets those calls in that have come. @returns {Promise<void>} */
    turn() {
        return new Promise((/** @type {(value?: any) => void} */ resolve) => {
            this.waiting.push(resolve);
            this.channel.port2.postMessage(0);
        });
    }

    /** Does something step by step, and lets other calls in between.
     * @template T @param {Generator<void, T, void>} steps @returns {Promise<T>} */
    async paced(steps) {
        for (;;) {
            const step = steps.next();
            if (step.done) {
                return step.value;
            }
            await this.pause();
        }
    }

    /** @param {any} asked */
    async answer(asked) {
        try {
            if (asked.call !== "open") {
                await this.ready;
            }
            const result = await this[/** @type {"open"} */ (asked.call)](asked);
            if (["part", "small"].includes(asked.call)) {
                this.pictured = performance.now();
            }
            const pels = /** @type {any} */ (result)?.pels;
            this.send({ id: asked.id, result }, pels ? [pels.buffer] : []);
        } catch (error) {
            const { message, name, kind = FaxWorker.KINDS[name], text, values } = /** @type {any} */ (error);
            this.send({ id: asked.id, error: String(message ?? error), kind: kind ?? "ended", text, values });
        }
    }

    /** Takes the file in, piece by piece, each through the same few bytes where the browser can do so.
     * @param {File} file @param {Library} library */
    async load(file, library) {
        /** @type {any} */
        const reader = FaxWorker.reader(file);
        let at = library.takeFile(file.size);
        const end = at + file.size;
        for (let room = new Uint8Array(FaxWorker.PIECE); ;) {
            const { value, done } = await reader.read(room).catch(() => {
                throw new Broken("gone");
            });
            if (done || !value || at + value.length > end) {
                break;
            }
            library.bytes(at, value.length).set(value);
            at += value.length;
            room = new Uint8Array(value.buffer);
        }
        if (at !== end) {
            throw new Broken("changed");
        }
        return FaxWorker.sum(library);
    }

    /** A sum by which it is seen that a file was changed: of its bytes by fours, with zeros after the last ones.
     * @param {Library} library */
    static sum(library) {
        const words = library.numbers(library.file, Math.ceil(library.length / 4));
        let all = 0;
        for (let at = 0; at < words.length; at++) {
            all = (Math.imul(all, 31) + words[at]) | 0;
        }
        return all;
    }

    /** @param {File} file @returns {any} */
    static reader(file) {
        try {
            return /** @type {any} */ (file.stream()).getReader({ mode: "byob" });
        } catch {
            return file.stream().getReader();
        }
    }

    /** Opens a file and reads it; what it finds is sent as events.
     * @param {{ wasm: ArrayBuffer, file: File, bare: Bare | null, reads: boolean, sum: number | null }} asked */
    async open({ wasm, file, bare, reads, sum }) {
        this.module = new WebAssembly.Module(wasm);
        this.library = new Library(this.module);
        if (file.size > Library.MOST_BYTES) {
            this.send({ event: "tooLarge" });
            return;
        }
        const found = await this.load(file, this.library);
        if (sum !== null && sum !== found) {
            throw new Broken("changed");
        }
        const made = await this.imported(file, bare);
        if (!made.library) {
            return;
        }
        this.library = made.library;
        this.salvaging = new Salvaging(this.library);
        if (made.left) {
            this.salvaging.give(made.left);
        }
        this.drawing = new Drawing(this.library, this.salvaging);
        this.isReady();
        this.send({ event: "opened", version: this.version(), sum: found });
        if (reads) {
            await this.read();
        }
    }

    /** What the file is read as: raw PBM and bare data are made into a fax first.
     * @param {File} file @param {Bare | null} bare as the reader says that it is coded
     * @returns {Promise<{ library: Library | null, left: Left | null }>} */
    async imported(file, bare) {
        const { library } = this;
        const importing = new Importing(this.module, library);
        const head = new Kinds(library).head(2);
        if (!bare && head === "P4") {
            const made = importing.images();
            this.send({ event: "images", told: made.told });
            return made;
        }
        const isKnown = ["II", "MM"].includes(head) || new Kinds(library).ofFile("ByteOrder");
        const coded = bare ?? (isKnown ? null : await this.paced(new Guessing(library, importing).guess(file.name)));
        if (!coded) {
            return { library, left: null };
        }
        const made = await this.paced(importing.bare(coded));
        this.send({ event: "bare", told: made.told, coded: made.coded, isGuessed: !bare });
        return made;
    }

    version() {
        const { library } = this;
        return String.fromCharCode(
            ...library.bytes(library.out, library.calls.faxpages_version_text(library.out, 64)));
    }

    async read() {
        const reading = new Reading(this.library, this.salvaging, this.send, this.pause);
        const pages = await reading.list();
        // The first page is asked for now.
        this.pictured = performance.now();
        await this.pause();
        const took = await reading.walk();
        await reading.received(pages);
        if (took < FaxWorker.LONG) {
            this.notes();
        } else {
            this.send({ event: "unchecked", took });
        }
    }

    /** Looks for notes: one call, which reads all rows once more. */
    notes() {
        const { notes, count, pages, rows, fault } = this.library.check(FaxWorker.NOTES);
        const name = fault.number ? this.library.name("fault", fault.number) : "";
        const kinds = this.namesOf(notes);
        this.send({ event: "checked", notes, count, pages, rows, fault, name, kinds });
    }

    /** The names of the kinds of notes, by their numbers.
     * @param {Uint32Array} notes */
    namesOf(notes) {
        const kinds = new Set(notes.filter((_, at) => at % 3 === 2));
        return new Map([...kinds].map((kind) => [kind, this.library.name("note", kind)]));
    }

    /** All notes as lines, however many there are. */
    noteLines() {
        const { notes } = this.library.check(this.library.check(0).count);
        const names = this.namesOf(notes);
        const parts = [];
        for (let at = 0; at < notes.length; at += 30000) {
            let text = "";
            for (let next = at; next < Math.min(notes.length, at + 30000); next += 3) {
                const [page, strip, kind] = notes.subarray(next, next + 3);
                text += FaxWorker.noteLine(page, strip, kind, names.get(kind) ?? "");
            }
            parts.push(text);
        }
        return new Blob(parts);
    }

    /** The line that `faxpages check` prints of a note.
     * @param {number} page @param {number} strip @param {number} kind @param {string} name */
    static noteLine(page, strip, kind, name) {
        return `note page ${page}${strip === Library.NO_STRIP ? "" : ` strip ${strip}`}: N${kind} ${name}\n`;
    }

    /** A part of a page, in pels of four bytes.
     * @param {any} asked */
    part(asked) {
        return { pels: this.drawing.part(asked) };
    }

    /** @param {{ page: number, most: number }} asked */
    small({ page, most }) {
        return this.drawing.small(page, most);
    }

    /** Makes a file of a page, or of pages.
     * @param {{ id: number, kind: string, pages: number[], coding: number, turns: number[] }} asked */
    async save({ id, kind, pages, coding, turns }) {
        if (kind === "png") {
            return new Png(this.drawing, this.pause).blob(pages[0], turns[0] ?? 0);
        }
        const saving = new Saving(this.drawing, this.module, this.pause,
            (done, all) => this.send({ event: "saving", id, done, all }));
        return kind === "tiff" ? saving.tiff(pages, turns, coding)
            : kind === "pdf" ? saving.pdf(pages, turns) : saving.pbm(pages);
    }
}
