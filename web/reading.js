"use strict";

/**
 * Reads a file in slices, between which the worker answers other calls: first the forms of all pages, then all rows.
 * After a row that cannot be read it tells what is left of its page, and goes on at the next one.
 */
class Reading {
    /** How long a slice is to take, in milliseconds. */
    static SLICE = 20;
    /** BadFaxLines and CleanFaxData, and what the second one is where bad rows stand in the data. */
    static BAD_ROWS = [326, 327];
    static LEFT = 2;
    /** Of so many pages these are looked for at a time, and for so many milliseconds at most. */
    static PAGES = 256;
    static LONG = 5000;

    /**
     * @param {Library} library
     * @param {Salvaging} salvaging
     * @param {(message: object) => void} send
     * @param {() => Promise<void>} pause
     */
    constructor(library, salvaging, send, pause) {
        this.library = library;
        this.kinds = new Kinds(library);
        this.salvaging = salvaging;
        this.send = send;
        this.pause = pause;
        this.most = 64;
        this.rows = 0;
        this.pages = 0;
        this.told = 0;
        /** Whether some page was told to have lost rows. */
        this.hasLost = false;
    }

    /** Whether a fault is of one page's fields: the pages after it can be read.
     * @param {Fault} fault */
    static isOfFields(fault) {
        return fault.number >= 7 && fault.number <= 10;
    }

    /** Lists all pages. A page whose fields are refused is listed with its fault. */
    async list() {
        for (let next = 0; ;) {
            const told = this.library.forms(next);
            if (told.count > 0) {
                const numbers = this.library.numbers(this.library.out, Library.FORM_NUMBERS * told.count).slice();
                this.send({ event: "forms", page: next, numbers });
                next += told.count;
            }
            if (told.status === Library.FAULT && Reading.isOfFields(told.fault) && told.fault.page >= next) {
                const name = this.nameOf(told.fault);
                const { kinds } = this;
                this.send({ event: "refused", fault: told.fault, name, kind: kinds.ofPage(told.fault, name),
                    isEmpty: kinds.isEmpty(told.fault, name) });
                next = told.fault.page + 1;
            } else if (told.status === Library.FAULT && told.fault.page >= next) {
                const name = this.nameOf(told.fault);
                const kind = next === 0 ? this.kinds.ofFile(name) : null;
                this.send({ event: "listed", pages: next, fault: told.fault, name, kind });
                return next;
            } else if (told.status === Library.END || told.status === Library.FAULT) {
                this.send({ event: "listed", pages: next, fault: null });
                return next;
            } else if (told.status !== Library.DONE) {
                throw Library.refusal(told.status);
            }
            await this.pause();
        }
    }

    /** Tells what the receivers of pages counted of bad rows, in the fields that TIFF-F has for it. The library looks
     * for a page from the first one on: where that takes long, as for very many pages, the last ones are left out.
     * @param {number} pages */
    async received(pages) {
        const began = performance.now();
        for (let page = 0; page < pages && performance.now() - began < Reading.LONG; page++) {
            if (this.kinds.has(page, Reading.BAD_ROWS)) {
                const { status, found: [bad, clean] } = this.library.received(page);
                if (status === Library.DONE && (bad || clean)) {
                    this.send({ event: "received", page, bad, isLeft: clean === Reading.LEFT });
                }
            }
            if (page % Reading.PAGES === Reading.PAGES - 1) {
                await this.pause();
            }
        }
    }

    /** @param {Fault} fault */
    nameOf(fault) {
        return this.library.name("fault", fault.number);
    }

    /** Reads all rows, and tells those that are lost. Answers how long the calls took, in milliseconds. */
    async walk() {
        const cursor = this.library.cursor(0, 0);
        let took = 0;
        for (;;) {
            const began = performance.now();
            const told = this.library.readRows(cursor, this.most);
            const slice = performance.now() - began;
            took += slice;
            this.rows += told.count;
            this.most = Reading.nextMost(this.most, slice);
            const page = told.count > 0 ? this.library.row(told.count - 1).page : cursor.page;
            if (told.status === Library.FAULT ? !this.skip(cursor, told.fault) : !Reading.goesOn(told.status)) {
                this.tellGiven();
                this.tell(page, true, told.status);
                return took;
            }
            this.tell(page, false, told.status);
            await this.pause();
        }
    }

    /** Whether more may follow what was read; not where all was, and where nothing can it is an error.
     * @param {number} status */
    static goesOn(status) {
        if (![Library.DONE, Library.NO_ROOM, Library.END, Library.OUTSIDE].includes(status)) {
            throw Library.refusal(status);
        }
        return status === Library.DONE || status === Library.NO_ROOM;
    }

    /** How many rows the next slice reads, where the last one took so long.
     * @param {number} most @param {number} took */
    static nextMost(most, took) {
        if (took > 2 * Reading.SLICE) {
            return Math.max(1, most >> 1);
        }
        return took < Reading.SLICE ? Math.min(Library.ROWS, 2 * most) : most;
    }

    /** Goes on at the page after a fault, if there is anything after it. Of a damaged page it tells what is lost.
     * @param {Cursor} cursor @param {Fault} fault */
    skip(cursor, fault) {
        const form = Salvaging.isOfRows(fault) ? this.library.form(fault.page) : null;
        if (!form && !Reading.isOfFields(fault)) {
            return false;
        }
        if (form) {
            this.tellLost(fault, form);
        }
        cursor.set(fault.page + 1, 0);
        return true;
    }

    /** Tells the rows of a page that are lost. Those before its first fault are counted already.
     * @param {Fault} fault @param {Form} form */
    tellLost(fault, form) {
        this.hasLost = true;
        if (!this.salvaging.faults.get(fault.page)) {
            this.salvaging.faults.set(fault.page, fault);
        }
        const { found, stretches } = /** @type {Left} */ (this.salvaging.of(fault.page, form));
        this.rows += found - fault.row;
        /** @type {Record<number, string>} */
        const names = {};
        for (let at = 2; at < stretches.length; at += 3) {
            names[stretches[at]] ??= this.library.name("fault", stretches[at]);
        }
        this.send({ event: "lost", page: fault.page, stretches, names, name: this.nameOf(fault) });
    }

    /** Tells what is lost of a page of bare data that can be read to its end, where more has to follow. */
    tellGiven() {
        const fault = this.salvaging.faults.get(0);
        const form = fault && !this.hasLost ? this.library.form(0) : null;
        if (fault && form) {
            this.rows = fault.row;
            this.tellLost(fault, form);
        }
    }

    /** Tells how far it is, ten times a second at most.
     * @param {number} page @param {boolean} isEnd @param {number} status */
    tell(page, isEnd, status) {
        const now = performance.now();
        if (isEnd || now - this.told > 100) {
            this.told = now;
            this.send({ event: isEnd ? "walked" : "walking", page, rows: this.rows, status });
        }
    }
}
