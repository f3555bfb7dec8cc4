"use strict";

/** Reads the rows of a page that are all found, one call after another. */
class Rows {
    /** @param {Drawing} drawing @param {Cursor} cursor @param {number} page @param {Form} form */
    constructor({ library, salvaging }, cursor, page, form) {
        this.library = library;
        this.cursor = cursor.set(page, 0);
        this.form = form;
        /** What is left of a page whose data are cut, though all rows are found. */
        this.left = salvaging.of(page, form);
        this.from = 0;
        this.to = 0;
    }

    /** Reads rows, as many at most as are asked for, and answers how many; 0 where one is lost.
     * @param {number} most */
    next(most) {
        this.from = this.to;
        if (this.left) {
            this.to += this.left.found === this.form.rows ? Math.min(most, Library.ROWS) : 0;
        } else {
            const told = this.library.readRows(this.cursor, most);
            this.to += told.status === Library.FAULT ? 0 : told.count;
        }
        return this.to - this.from;
    }

    /** The packed bytes of a row that was read last.
     * @param {number} index */
    bytes(index) {
        const { stride } = this.form;
        return this.left ? this.library.bytes(this.left.raster + (this.from + index) * stride, stride)
            : this.library.row(index).bytes;
    }
}

/**
 * Makes files of pages: PBM of those that can be read wholly, PDF of all, with lost rows grey, and TIFF, with lost
 * rows white. What was made
 * is read again by the library, or unpacked, and compared with the rows of the fax before it is handed out.
 *
 * @typedef {{ at: number, length: number, page: number }} Piece
 */
class Saving {
    /** A raster of a page has this many bytes at most. */
    static MOST_RASTER = Library.MOST_BYTES;

    /**
     * @param {Drawing} drawing of the fax
     * @param {WebAssembly.Module} module
     * @param {() => Promise<void>} pause
     * @param {(done: number, all: number) => void} tell
     */
    constructor(drawing, module, pause, tell) {
        this.drawing = drawing;
        this.library = drawing.library;
        this.made = new Library(module);
        this.cursor = this.library.cursor(0, 0);
        this.pause = pause;
        this.tell = tell;
    }

    /** @param {number} page */
    formOf(page) {
        const form = this.library.form(page);
        if (!form || form.stride * form.rows > Saving.MOST_RASTER) {
            throw Library.troubleOf("tooLarge", page);
        }
        return form;
    }

    /** Reads a page into a raster of the other library.
     * @param {number} page @param {Form} form */
    async rasterOf(page, form) {
        const at = this.made.room("raster", form.stride * form.rows);
        const rows = new Rows(this.drawing, this.cursor, page, form);
        for (let due = 0; due < form.rows; await this.pause()) {
            const count = rows.next(form.rows - due);
            for (let index = 0; index < count; index++, due++) {
                this.made.bytes(at + due * form.stride, form.stride).set(rows.bytes(index));
            }
            if (count === 0) {
                throw Library.troubleOf("notWhole", page);
            }
        }
        return at;
    }

    /** A page as it is shown, turned, with lost rows white: a raster of the other library, and its form.
     * @param {number} page @param {number} turns quarters to the right */
    async shown(page, turns) {
        const form = this.formOf(page);
        if (turns) {
            const turned = new Turning(this.drawing, page, form, turns);
            const size = turned.form.stride * turned.form.rows;
            const at = this.made.room("raster", size);
            turned.pack(this.made.bytes(at, size));
            await this.pause();
            return { at, form: turned.form };
        }
        const isLossy = this.drawing.salvaging.isLossy(page, form);
        return { at: isLossy ? this.rasterLeft(page, form, false) : await this.rasterOf(page, form), form };
    }

    /** The pages as TIFF-F in a coding, as they are shown. A fax that is saved whole and upright is as
     * `faxpages salvage -o` writes it, with the bad rows of each page in the fields 326 to 328.
     * @param {number[]} pages @param {number[]} turns of each, in quarters @param {number} coding */
    async tiff(pages, turns, coding) {
        const whole = turns.some((turned) => turned) ? null : this.wholeFile(pages, coding);
        const { at, length } = whole ?? await this.pageByPage(pages, turns, coding);
        this.made.file = at;
        this.made.length = length;
        await this.compareFile(pages, turns);
        return new Blob([this.made.bytes(at, length)], { type: "image/tiff" });
    }

    /** The pages of the fax that have a form, written anew; or null where these are not all.
     * @param {number[]} pages @param {number} coding */
    wholeFile(pages, coding) {
        const { made, library } = this;
        made.bytes(made.takeFile(library.length), library.length).set(library.bytes(library.file, library.length));
        const { status, at, length } = made.salvagedFile(coding);
        if (status !== Library.DONE) {
            return null;
        }
        made.file = at;
        made.length = length;
        return made.form(pages.length - 1) && !made.form(pages.length) ? { at, length } : null;
    }

    /** The same page by page, each as it is shown.
     * @param {number[]} pages @param {number[]} turns @param {number} coding */
    async pageByPage(pages, turns, coding) {
        const writing = new Writing(this.made, pages.length);
        for (const [done, page] of pages.entries()) {
            const { at, form } = await this.shown(page, turns[done] ?? 0);
            writing.add(form.written(coding), at, form.stride);
            this.tell(done + 1, 2 * pages.length);
        }
        return writing.end();
    }

    /** Compares the file that was made with the pages that it was made of, row by row.
     * @param {number[]} pages @param {number[]} turns */
    async compareFile(pages, turns) {
        const made = this.made.cursor(0, 0);
        for (const [number, page] of pages.entries()) {
            const { at, form } = await this.shown(page, turns[number] ?? 0);
            for (let due = 0; due < form.rows; await this.pause()) {
                const again = this.made.readRows(made, Math.min(Library.ROWS, form.rows - due));
                if (again.count === 0 || !this.isRaster(again.count, number, due, at, form.stride)) {
                    throw Library.troubleOf("notWritten", page);
                }
                due += again.count;
            }
            this.tell(pages.length + number + 1, 2 * pages.length);
        }
        if (this.made.readRows(made, 1).status !== Library.END) {
            throw Library.trouble("more", []);
        }
    }

    /** Whether so many rows that were read last, of a page that was made from a row on, are those of a raster.
     * @param {number} count @param {number} page @param {number} from @param {number} raster @param {number} stride */
    isRaster(count, page, from, raster, stride) {
        for (let index = 0; index < count; index++) {
            const made = this.made.row(index);
            const bytes = this.made.bytes(raster + (from + index) * stride, stride);
            if (made.page !== page || made.row !== from + index || !Saving.isEqual(made.bytes, bytes)) {
                return false;
            }
        }
        return true;
    }

    /** Compares a page that was made, from a place on, with a page of the fax.
     * @param {Cursor} made @param {number} number of the page that was made @param {number} page @param {Form} form */
    async comparePage(made, number, page, form) {
        const rows = new Rows(this.drawing, this.cursor, page, form);
        for (let due = 0; due < form.rows; await this.pause()) {
            const count = rows.next(form.rows - due);
            const again = this.made.readRows(made, count);
            if (count === 0 || again.count !== count || !this.isSame(rows, count, number, due)) {
                throw Library.troubleOf("notWritten", page);
            }
            due += count;
        }
    }

    /** Whether rows that were read last are the same, and as many of a page that was made from a row on.
     * @param {Rows} rows @param {number} count @param {number} page @param {number} from */
    isSame(rows, count, page, from) {
        for (let index = 0; index < count; index++) {
            const made = this.made.row(index);
            const isThere = made.page === page && made.row === from + index;
            if (!isThere || !Saving.isEqual(made.bytes, rows.bytes(index))) {
                return false;
            }
        }
        return true;
    }

    /** @param {Uint8Array} one @param {Uint8Array} other */
    static isEqual(one, other) {
        let at = 0;
        if (one.length !== other.length) {
            return false;
        }
        if (one.byteOffset % 4 === 0 && other.byteOffset % 4 === 0) {
            const words = one.length >> 2;
            const mine = new Uint32Array(one.buffer, one.byteOffset, words);
            const its = new Uint32Array(other.buffer, other.byteOffset, words);
            for (let word = 0; word < words; word++) {
                if (mine[word] !== its[word]) {
                    return false;
                }
            }
            at = 4 * words;
        }
        for (; at < one.length; at++) {
            if (one[at] !== other[at]) {
                return false;
            }
        }
        return true;
    }

    /** The pages as raw PBM, an image after another.
     * @param {number[]} pages */
    async pbm(pages) {
        /** @type {BlobPart[]} */
        const parts = [];
        for (const [done, page] of pages.entries()) {
            const form = this.formOf(page);
            const raster = await this.rasterOf(page, form);
            const head = new TextEncoder().encode(`P4\n${form.width} ${form.rows}\n`);
            const image = new Blob([head, this.made.bytes(raster, form.stride * form.rows)]);
            await this.comparePbm(image, page, form);
            parts.push(image);
            this.tell(done + 1, pages.length);
        }
        return new Blob(parts, { type: "image/x-portable-bitmap" });
    }

    /** Reads an image again, as a fax of one page, and compares its rows.
     * @param {Blob} image @param {number} page @param {Form} form */
    async comparePbm(image, page, form) {
        this.made.bytes(this.made.takeFile(image.size), image.size).set(new Uint8Array(await image.arrayBuffer()));
        const converted = this.made.convert(Library.MMR);
        if (converted.status !== Library.DONE) {
            throw Library.troubleOf("notWritten", page);
        }
        const { file, length } = this.made;
        [this.made.file, this.made.length] = [converted.at, converted.length];
        await this.comparePage(this.made.cursorNamed("again"), 0, page, form);
        [this.made.file, this.made.length] = [file, length];
    }

    /** The pages as a PDF, each an image of MMR data, or two masks where rows are lost.
     * @param {number[]} pages @param {number[]} turns of each, in quarters */
    async pdf(pages, turns) {
        const pdf = new Pdf();
        for (const [done, page] of pages.entries()) {
            const form = this.formOf(page);
            const isDamaged = this.drawing.salvaging.isLossy(page, form);
            const raster = isDamaged ? this.rasterLeft(page, form, false) : await this.rasterOf(page, form);
            const data = await this.coded(page, form, raster);
            const lost = isDamaged ? await this.coded(page, form, this.rasterLeft(page, form, true)) : null;
            pdf.addPage(form, turns[done] ?? 0, data, lost);
            await this.pause();
            this.tell(done + 1, pages.length);
        }
        return pdf.blob();
    }

    /** What is left of a page as a raster of the other library, with lost rows white; or these rows alone, black.
     * @param {number} page @param {Form} form @param {boolean} isOfLost */
    rasterLeft(page, form, isOfLost) {
        const at = this.made.room("raster", form.stride * form.rows);
        this.drawing.eachRow(page, form, 0, form.rows, (row, bytes) => {
            const place = this.made.bytes(at + row * form.stride, form.stride);
            if (bytes && !isOfLost) {
                place.set(bytes);
            } else {
                place.fill(isOfLost && !bytes ? 255 : 0);
            }
        });
        if (isOfLost && form.width % 8) {
            for (let row = 0; row < form.rows; row++) {
                this.made.bytes(at + (row + 1) * form.stride - 1, 1)[0] &= 0xff << (8 - (form.width % 8));
            }
        }
        return at;
    }

    /** A raster as MMR data, which were read again and compared.
     * @param {number} page @param {Form} form @param {number} raster */
    async coded(page, form, raster) {
        const strip = this.made.codeStrip(form, raster);
        if (strip.status !== Library.DONE) {
            throw Library.troubleOf("notCoded", page);
        }
        const data = new Blob([this.made.bytes(strip.at, strip.length)]);
        await this.compareStrip(data, page, form, raster);
        return data;
    }

    /** Reads the data of an image again, and compares its rows with those of the page.
     * @param {Blob} data @param {number} page @param {Form} form @param {number} raster */
    async compareStrip(data, page, form, raster) {
        const size = form.stride * form.rows;
        const strip = this.made.takeFile(data.size);
        const again = this.made.room("again", size);
        const cursor = this.made.cursorNamed("strip");
        this.made.bytes(strip, data.size).set(new Uint8Array(await data.arrayBuffer()));
        const numbers = [form.width, form.rows, Library.MMR, 1, 0];
        const told = this.made.readStrip(strip, data.size, numbers, cursor, again, size, form.stride);
        if (told.count !== form.rows || !Saving.isEqual(this.made.bytes(raster, size), this.made.bytes(again, size))) {
            throw Library.troubleOf("notWritten", page);
        }
    }
}
