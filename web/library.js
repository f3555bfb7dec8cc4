"use strict";

/**
 * The calls of faxpages.h, over one instance of the library in WebAssembly, whose memory is a file's. The page runs
 * this in its workers, never by itself.
 *
 * @typedef {{ number: number, tag: number, page: number, row: number }} Fault
 * @typedef {{ status: number, count: number, page: number, row: number, fault: Fault }} Told
 */
class Library {
    static DONE = 0;
    static END = 1;
    static FAULT = 2;
    static OUTSIDE = 3;
    static MEMORY = 4;
    static NO_ROOM = 5;
    static TOO_LARGE = 8;
    static DATA_END = 9;
    /** The numbers of two faults: the data end before their rows do, and a strip of unknown height has too many. */
    static DATA_ENDS = 101;
    static TOO_MANY_ROWS = 108;
    static NO_STRIP = 4294967295;
    static RUNS = 65536;
    static ROWS = 4096;
    static OUT = 1 << 20;
    static FORMS = 512;
    static FORM_NUMBERS = 13;
    static MOST_BYTES = 268435456;
    static MH = 1;
    static MR = 2;
    static MMR = 3;

    /** @param {WebAssembly.Module} module */
    constructor(module) {
        this.calls = /** @type {any} */ (new WebAssembly.Instance(module).exports);
        this.memory = /** @type {WebAssembly.Memory} */ (this.calls.memory);
        this.told = this.take(64);
        this.rows = this.take(20 * Library.ROWS);
        this.out = this.take(Library.OUT);
        this.file = this.told;
        this.length = 0;
        /** @type {Map<string, { at: number, size: number }>} */
        this.rooms = new Map();
    }

    /** Takes memory that nothing else uses: the library's own allocator grows by other pages. It is never given back.
     * @param {number} bytes */
    take(bytes) {
        return this.memory.grow(Math.max(1, Math.ceil(bytes / 65536))) * 65536;
    }

    /** Memory that has a name, and grows: what it held is kept only where it need not grow.
     * @param {string} name @param {number} bytes */
    room(name, bytes) {
        let room = this.rooms.get(name);
        if (!room || room.size < bytes) {
            const size = room ? Math.max(bytes, Math.ceil(1.5 * room.size)) : bytes;
            room = { at: this.take(size), size };
            this.rooms.set(name, room);
        }
        return room.at;
    }

    /** @param {number} at @param {number} count */
    numbers(at, count) {
        return new Uint32Array(this.memory.buffer, at, count);
    }

    /** @param {number} at @param {number} length */
    bytes(at, length) {
        return new Uint8Array(this.memory.buffer, at, length);
    }

    /** Makes room for a file, and answers where it stands.
     * @param {number} length */
    takeFile(length) {
        this.file = this.room("file", length + 1);
        this.length = length;
        return this.file;
    }

    /** @param {number} at @returns {Fault} */
    faultAt(at) {
        const [number, tag, page, row] = this.numbers(at, 4);
        return { number, tag, page, row };
    }

    /** @param {number} status @returns {Told} */
    toldOf(status) {
        const [count, , page, row] = this.numbers(this.told, 4);
        return { status, count, page, row, fault: this.faultAt(this.told + 16) };
    }

    /** A place that rows are read from, with the runs of the row before it.
     * @param {number} page @param {number} row */
    cursor(page, row) {
        return new Cursor(this, this.take(16 + 4 * Library.RUNS)).set(page, row);
    }

    /** The same, in memory that has a name, at the beginning of the file.
     * @param {string} name */
    cursorNamed(name) {
        return new Cursor(this, this.room(`cursor ${name}`, 16 + 4 * Library.RUNS)).set(0, 0);
    }

    /** Forms from a page on; they stand in `out`.
     * @param {number} page */
    forms(page) {
        return this.toldOf(
            this.calls.faxpages_forms(this.file, this.length, page, this.out, Library.FORMS, this.told));
    }

    /** The form of a page, or none.
     * @param {number} page @returns {Form | null} */
    form(page) {
        const told = this.toldOf(this.calls.faxpages_forms(this.file, this.length, page, this.out, 1, this.told));
        return told.count === 1 ? new Form(this.numbers(this.out, Library.FORM_NUMBERS).slice()) : null;
    }

    /** Reads rows from a cursor on, and leaves it after them; where they stand is told by `row`.
     * @param {Cursor} cursor @param {number} most */
    readRows(cursor, most) {
        return this.toldOf(this.calls.faxpages_rows_from(this.file, this.length, cursor.at, cursor.runs, Library.RUNS,
            this.rows, Math.min(most, Library.ROWS), this.out, Library.OUT, this.told));
    }

    /** The packed bytes of a row that was read last, its page, its number and its width.
     * @param {number} index */
    row(index) {
        const numbers = this.numbers(this.rows + 20 * index, 5);
        return { page: numbers[2], row: numbers[3], width: numbers[4],
            bytes: this.bytes(this.out + numbers[0], numbers[1]) };
    }

    /** Reads all rows, and tells how many there are, notes on them and the first fault.
     * @param {number} room for notes */
    check(room) {
        const notes = this.room("notes", 12 * room);
        const report = this.room("report", 40);
        const status = this.calls.faxpages_check(this.file, this.length, notes, room, report);
        if (status !== Library.END && status !== Library.FAULT) {
            throw Library.refusal(status);
        }
        const [pages, pagesHigh, rows, rowsHigh, count] = this.numbers(report, 5);
        return {
            pages: pages + 4294967296 * pagesHigh,
            rows: rows + 4294967296 * rowsHigh,
            count,
            notes: this.numbers(notes, 3 * Math.min(count, room)).slice(),
            fault: this.faultAt(report + 20),
        };
    }

    /** What the receiver of a page counted of bad rows: the numbers of fields 326, 327 and 328, or null.
     * @param {number} page @returns {{ status: number, found: (number | null)[], fault: Fault }} */
    received(page) {
        const at = this.room("received", 40);
        const status = this.calls.faxpages_received(this.file, this.length, page, at);
        const numbers = this.numbers(at, 6);
        const found = [0, 2, 4].map((has) => numbers[has] ? numbers[has + 1] : null);
        return { status, found, fault: this.faultAt(at + 24) };
    }

    /** Converts the file, to raw PBM (0) or TIFF-F in a coding, into memory that is taken for it.
     * @param {number} target */
    convert(target) {
        return this.written(this.calls.faxpages_convert, target);
    }

    /** Writes the pages of a damaged file as a new one: lost rows are white, and counted in the fields 326 to 328. The
     * status is END where no page has a form.
     * @param {number} target */
    salvagedFile(target) {
        return this.written(this.calls.faxpages_salvage_convert, target);
    }

    /** What a call that writes a file has written.
     * @param {(file: number, length: number, options: number, out: number, room: number, told: number) => number} write
     * @param {number} target */
    written(write, target) {
        const options = this.room("options", 20);
        this.numbers(options, 5).set([target, 1, 4, 0, 0]);
        let at = this.out;
        let status = write(this.file, this.length, options, at, 0, this.told);
        const length = this.numbers(this.told, 1)[0];
        if (status === Library.NO_ROOM) {
            at = this.room("converted", length);
            status = write(this.file, this.length, options, at, length, this.told);
        }
        const image = this.numbers(this.told, 4)[2];
        return { status, at, length, image, fault: this.faultAt(this.told + 16) };
    }

    /** Codes a raster as a strip of MMR, and answers where it stands.
     * @param {Form} form @param {number} raster */
    codeStrip(form, raster) {
        const strip = this.room("strip form", 20);
        this.numbers(strip, 5).set([form.width, form.rows, Library.MMR, 1, 0]);
        const call = (/** @type {number} */ out, /** @type {number} */ room) => this.calls.faxpages_strip_code(
            strip, 4, raster, form.rows * form.stride, form.stride, out, room, this.told);
        let at = this.out;
        let status = call(at, Library.OUT);
        const length = this.numbers(this.told, 1)[0];
        if (status === Library.NO_ROOM) {
            at = this.room("strip", length);
            status = call(at, length);
        }
        return { status, at, length };
    }

    /** Reads rows of a strip into a raster, from a cursor on.
     * @param {number} strip @param {number} length @param {number[]} form of a strip
     * @param {Cursor} cursor @param {number} raster @param {number} room @param {number} stride */
    readStrip(strip, length, form, cursor, raster, room, stride) {
        const at = this.room("strip form", 20);
        this.numbers(at, 5).set(form);
        return this.toldOf(this.calls.faxpages_strip_rows(
            strip, length, at, cursor.at, cursor.runs, Library.RUNS, raster, room, stride, this.told));
    }

    /** What is left of a page, in memory that has a name: a page that is salvaged later takes its place.
     * @param {number} page @param {Form} form */
    salvage(page, form) {
        const most = (form.rows + 1) >> 1;
        const size = form.rows * form.stride;
        const raster = this.room("left", size);
        const lost = this.room("lost", 12 * most);
        const status = this.calls.faxpages_salvage(this.file, this.length, page,
            this.room("form", 4 * Library.FORM_NUMBERS), raster, size, form.stride, lost, most, this.told);
        if (status !== Library.DONE) {
            throw Library.refusal(status);
        }
        const count = this.numbers(this.told, 2)[1];
        return new Left(this, form, raster, this.numbers(lost, 3 * count).slice());
    }

    /** What is left of a strip: its rows in memory that has a name, how many they are, how many of them are lost, the
     * stretches of these, and the fault of the last row of a strip of unknown height, or 0. Rows that have no room are
     * counted alone.
     * @param {number} strip @param {number} length @param {number[]} form of a strip */
    salvageStrip(strip, length, form) {
        const stride = (form[0] + 7) >> 3;
        const at = this.room("strip form", 20);
        const call = (/** @type {number} */ rows) => {
            const [room, most] = [rows * stride, (rows + 1) >> 1];
            const [raster, lost] = [this.room("left", Math.max(1, room)), this.room("lost", 12 * Math.max(1, most))];
            this.numbers(at, 5).set(form);
            const status = this.calls.faxpages_salvage_strip(
                strip, length, at, raster, room, stride, lost, most, this.told);
            return { told: this.toldOf(status), used: this.numbers(this.told, 2)[1], raster, lost };
        };
        const all = form[1] || Library.counted(call(0).told);
        if (all * stride > Library.MOST_BYTES) {
            return { all, lost: 0, raster: 0, stretches: new Uint32Array(0), fault: 0 };
        }
        const { told, used, raster, lost } = call(all);
        if (![Library.DONE, Library.END, Library.DATA_END, Library.FAULT].includes(told.status)) {
            throw Library.refusal(told.status);
        }
        const stretches = this.numbers(lost, 3 * used).slice();
        const count = stretches.reduce((sum, number, index) => sum + (index % 3 === 1 ? number : 0), 0);
        const fault = told.status === Library.FAULT ? told.fault.number : 0;
        return { all, lost: count, raster, stretches, fault };
    }

    /** How many rows a strip has for which there was no room.
     * @param {Told} told */
    static counted(told) {
        if (told.status !== Library.NO_ROOM) {
            throw Library.refusal(told.status);
        }
        return told.row;
    }

    /** The name of a fault, or of a note. Where a later library has none, a fault has its number in its name.
     * @param {"fault" | "note"} kind @param {number} number */
    name(kind, number) {
        const length = this.calls[`faxpages_${kind}_name`](number, this.out, 64);
        const name = length <= 64 ? String.fromCharCode(...this.bytes(this.out, length)) : "";
        return name || (kind === "note" ? "Unknown" : `Unknown ${number}`);
    }

    /** Why a call has no answer: memory was refused, or a status that it may not have, as a later library may.
     * @param {number} status */
    static refusal(status) {
        return status === Library.MEMORY ? new RangeError("memory was refused")
            : Library.trouble("status", [String(status)], new Error(`the library answered with status ${status}`));
    }

    /** An error that the page says in its own words: by one of TEXTS.errors, and what is put into that.
     * @param {string} text @param {string[]} values @param {Error} [error] */
    static trouble(text, values, error = new Error([text, ...values].join(" "))) {
        return Object.assign(error, { text, values });
    }

    /** The same of a page.
     * @param {string} text @param {number} page */
    static troubleOf(text, page) {
        return Library.trouble(text, [String(page + 1)]);
    }
}

/** A TIFF-F file that is written page by page, in memory that grows. */
class Writing {
    /** @param {Library} library @param {number} total how many pages it will have, or 0 */
    constructor(library, total) {
        this.library = library;
        this.total = total;
        this.count = 0;
        this.told = library.room("written", 16);
        library.numbers(this.told, 4).set([0, 0, total, 0]);
        this.file = { at: library.take(1 << 20), size: 1 << 20 };
    }

    /** How many bytes it has so far. */
    get length() {
        return this.library.numbers(this.told, 1)[0];
    }

    /** Codes a raster of this form as a page, and adds it.
     * @param {Uint32Array} form @param {number} raster @param {number} stride */
    add(form, raster, stride) {
        const { library, told } = this;
        const at = library.room("form", 4 * Library.FORM_NUMBERS);
        library.numbers(at, Library.FORM_NUMBERS).set(form);
        const size = form[1] * stride;
        for (;;) {
            const { file } = this;
            const status = library.calls.faxpages_add_page(at, 4, raster, size, stride, file.at, file.size, told);
            if (status === Library.DONE) {
                this.count++;
                return;
            }
            this.grow(status, size);
        }
    }

    /** Gives the file more room, with what it has.
     * @param {number} status @param {number} more */
    grow(status, more) {
        if (status !== Library.NO_ROOM && status !== Library.TOO_LARGE) {
            throw Library.refusal(status);
        }
        if (status === Library.TOO_LARGE || this.file.size >= Library.MOST_BYTES) {
            throw Library.trouble("fileTooLarge", [], new RangeError("the file would be too large"));
        }
        const size = Math.min(Library.MOST_BYTES, 2 * this.file.size + more);
        const at = this.library.take(size);
        this.library.bytes(at, this.length).set(this.library.bytes(this.file.at, this.length));
        this.file = { at, size };
    }

    /** Where the file stands, once its pages know how many they are. */
    end() {
        const { library, file, told } = this;
        const status = this.total ? Library.DONE : library.calls.faxpages_end_pages(file.at, file.size, told);
        if (status !== Library.DONE) {
            throw Library.refusal(status);
        }
        return { at: file.at, length: this.length };
    }
}

/** A place in the file of a library, and the runs of the row before it. */
class Cursor {
    /** @param {Library} library @param {number} at */
    constructor(library, at) {
        this.library = library;
        this.at = at;
        this.runs = at + 16;
    }

    /** Goes to the beginning of a row.
     * @param {number} page @param {number} row */
    set(page, row) {
        this.library.numbers(this.at, 4).set([page, row, 0, 0]);
        return this;
    }

    get page() {
        return this.library.numbers(this.at, 1)[0];
    }

    get row() {
        return this.library.numbers(this.at, 2)[1];
    }

    /** The place and its runs, to come back to; none where they are too many to be kept.
     * @param {number} most */
    keep(most) {
        const [, , , runs] = this.library.numbers(this.at, 4);
        return runs <= most ? this.library.numbers(this.at, 4 + runs).slice() : null;
    }

    /** @param {Uint32Array} kept */
    comeBack(kept) {
        this.library.numbers(this.at, kept.length).set(kept);
        return this;
    }
}

/** The form of a page, as faxpages.h has it. */
class Form {
    /** @param {Uint32Array} numbers */
    constructor(numbers) {
        this.numbers = numbers;
        this.width = numbers[0];
        this.rows = numbers[1];
        this.coding = numbers[2];
        this.order = numbers[3];
        this.exchanged = numbers[5];
        this.rowsOfStrip = numbers[6];
        this.strips = numbers[7];
        this.acrossAbove = numbers[8];
        this.acrossBelow = numbers[9];
        this.downAbove = numbers[10];
        this.downBelow = numbers[11];
        this.unit = numbers[12];
    }

    /** The bytes of a row. */
    get stride() {
        return (this.width + 7) >> 3;
    }

    /** Pels of a row in a unit, and rows in a unit: 0 where the file does not say. */
    get across() {
        return this.acrossBelow ? this.acrossAbove / this.acrossBelow : 0;
    }

    get down() {
        return this.downBelow ? this.downAbove / this.downBelow : 0;
    }

    /** How many times as high as wide a pel is. */
    get shape() {
        return this.across > 0 && this.down > 0 ? this.across / this.down : 1;
    }

    /** How often a pel is drawn across, and a row down, so that a page has its proportions in square pels.
     * @returns {[number, number]} */
    get repeats() {
        const times = (/** @type {number} */ ratio) => (ratio < 1.5 ? 1 : ratio > 4 ? 4 : Math.floor(ratio + 0.5));
        return this.across > 0 && this.down > 0
            ? [times(this.down / this.across), times(this.across / this.down)] : [1, 1];
    }

    /** The form of a page that is written in a coding: in one strip, the highest bit first, black as black.
     * @param {number} coding */
    written(coding) {
        const numbers = this.numbers.slice();
        numbers.set([coding, 1, 0, 0, this.rows, 1], 2);
        return numbers;
    }

    /** The line that `faxpages list` prints.
     * @param {number} page */
    line(page) {
        const coding = ["", "mh", "mr", "mmr"][this.coding];
        return `page ${page} ${this.width} ${this.rows} ${coding} ${this.order} ${this.exchanged} ${this.strips} ` +
            `${this.acrossAbove}/${this.acrossBelow} ${this.downAbove}/${this.downBelow} ${this.unit}`;
    }
}
