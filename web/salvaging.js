"use strict";

/**
 * What is left of a page: its rows, of packed bytes, and the stretches of those that are lost, each three numbers: the
 * first row, how many they are, and the fault of the first.
 */
class Left {
    /** Where there is no raster only the rows before the first fault are found, and stand nowhere.
     * @param {Library} library @param {Form} form @param {number} raster @param {Uint32Array} stretches */
    constructor(library, form, raster, stretches) {
        this.library = library;
        this.form = form;
        this.raster = raster;
        this.stretches = stretches;
    }

    /** How many rows are found. */
    get found() {
        let lost = 0;
        for (let at = 1; at < this.stretches.length; at += 3) {
            lost += this.stretches[at];
        }
        return this.form.rows - lost;
    }

    /** The first stretch that does not end before a row.
     * @param {number} row */
    stretchAt(row) {
        let [from, to] = [0, this.stretches.length / 3];
        while (from < to) {
            const middle = (from + to) >> 1;
            const end = this.stretches[3 * middle] + this.stretches[3 * middle + 1];
            [from, to] = end <= row ? [middle + 1, to] : [from, middle];
        }
        return from;
    }

    /** Hands out rows, each once: its bytes, or none where it is lost.
     * @param {number} from @param {number} to @param {(row: number, bytes: Uint8Array | null) => void} use */
    eachRow(from, to, use) {
        const { stride } = this.form;
        for (let row = from, stretch = this.stretchAt(from); row < to; row++) {
            const [first, count] = this.stretches.subarray(3 * stretch, 3 * stretch + 2);
            const isLost = first <= row;
            use(row, isLost ? null : this.library.bytes(this.raster + row * stride, stride));
            stretch += isLost && first + count === row + 1 ? 1 : 0;
        }
    }
}

/** Knows which pages are damaged, and what is left of the one that was asked for last. */
class Salvaging {
    /** Of a damaged page whose raster would have more bytes only the rows before its first fault are found. */
    static MOST_RASTER = Library.MOST_BYTES;

    /** @param {Library} library */
    constructor(library) {
        this.library = library;
        /** The first fault of the rows of each page that was looked at, or none.
         * @type {Map<number, Fault | null>} */
        this.faults = new Map();
        /** @type {{ page: number, left: Left } | null} */
        this.last = null;
    }

    /** Takes what is left of the first page as it was found before, as of bare data.
     * @param {Left} left */
    give(left) {
        const { stretches } = left;
        this.last = { page: 0, left };
        this.faults.set(0, stretches.length > 0 ? { number: stretches[2], tag: 0, page: 0, row: stretches[0] } : null);
    }

    /** Whether a fault is of rows of a page: of the data of a strip, or of its place.
     * @param {Fault} fault */
    static isOfRows(fault) {
        return fault.number >= 11 && fault.number < 200;
    }

    /** The first fault of a page's rows, if there is one.
     * @param {number} page @param {Form} form */
    faultOf(page, form) {
        const known = this.faults.get(page);
        if (known !== undefined) {
            return known;
        }
        const cursor = this.library.cursorNamed("whole").set(page, 0);
        for (let due = 0; due < form.rows;) {
            const told = this.library.readRows(cursor, form.rows - due);
            due += told.count;
            if (told.status === Library.FAULT) {
                this.faults.set(page, told.fault);
                return told.fault;
            }
            if (told.count === 0) {
                throw Library.refusal(told.status);
            }
        }
        this.faults.set(page, null);
        return null;
    }

    /** What is left of a page of which some row has a fault, or none of a whole page.
     * @param {number} page @param {Form} form */
    of(page, form) {
        const fault = this.faultOf(page, form);
        if (!fault) {
            return null;
        }
        if (this.last?.page !== page) {
            const isLarge = form.rows * form.stride > Salvaging.MOST_RASTER;
            const given = Uint32Array.of(fault.row, form.rows - fault.row, fault.number);
            this.last = { page, left: isLarge ? new Left(this.library, form, 0, given)
                : this.library.salvage(page, form) };
        }
        return this.last.left;
    }

    /** Whether a page has rows that are lost.
     * @param {number} page @param {Form} form */
    isLossy(page, form) {
        const left = this.of(page, form);
        return left !== null && left.found < form.rows;
    }
}
