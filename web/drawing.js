"use strict";

/** Draws parts of pages, as pels of four bytes: white, black, and grey where a row is lost. */
class Drawing {
    static WHITE = 0xffffffff;
    static BLACK = 0xff000000;
    static GREY = 0xffa8a8a8;
    /** Places are kept where they have no more runs than this, and so many of them. */
    static KEPT_RUNS = 4096;
    static KEPT = 256;
    /** Longer pages have no thumbnail. */
    static MOST_ROWS = 20000;

    /** @param {Library} library @param {Salvaging} salvaging */
    constructor(library, salvaging) {
        this.library = library;
        this.salvaging = salvaging;
        this.cursor = library.cursor(0, 0);
        /** @type {Map<string, Uint32Array>} */
        this.kept = new Map();
    }

    /** Hands out the rows of a page from one on, each once: its bytes, or none where it is lost.
     * @param {number} page @param {Form} form @param {number} from @param {number} to
     * @param {(row: number, bytes: Uint8Array | null) => void} use */
    eachRow(page, form, from, to, use) {
        const left = this.salvaging.of(page, form);
        if (left?.raster) {
            left.eachRow(from, to, use);
            return;
        }
        const end = left ? left.stretches[0] : to;
        this.readRows(page, from, Math.min(to, end), use);
        for (let row = Math.max(from, end); row < to; row++) {
            use(row, null);
        }
    }

    /** Reads rows that can be read.
     * @param {number} page @param {number} from @param {number} to
     * @param {(row: number, bytes: Uint8Array) => void} use */
    readRows(page, from, to, use) {
        const kept = this.kept.get(`${page} ${from}`);
        this.cursor.set(page, from);
        if (kept) {
            this.cursor.comeBack(kept);
        }
        for (let due = from; due < to;) {
            const told = this.library.readRows(this.cursor, to - due);
            for (let index = 0; index < told.count; index++) {
                use(due++, this.library.row(index).bytes);
            }
            if (told.count === 0) {
                throw Library.refusal(told.status);
            }
        }
        this.keep(page, to);
    }

    /** Keeps the place, so that rows from there on can be read without those above them.
     * @param {number} page @param {number} row */
    keep(page, row) {
        const place = this.cursor.page === page && this.cursor.row === row && this.cursor.keep(Drawing.KEPT_RUNS);
        if (place && this.kept.size >= Drawing.KEPT) {
            this.kept.delete(this.kept.keys().next().value);
        }
        if (place) {
            this.kept.set(`${page} ${row}`, place);
        }
    }

    /** A part of a page, a number for each pel; or, where it is shrunk, for so many pels across and rows down.
     * @param {{ page: number, x: number, y: number, width: number, height: number, across: number, down: number }} part
     */
    part({ page, x, y, width, height, across, down }) {
        const form = /** @type {Form} */ (this.library.form(page));
        if (across > 1 || down > 1) {
            const shrunk = new Shrunk(x, width, height, across, down);
            this.eachRow(page, form, y, y + height, (row, bytes) => shrunk.add(row - y, bytes));
            return shrunk.pels();
        }
        const pels = new Uint32Array(width * height).fill(Drawing.WHITE);
        this.eachRow(page, form, y, y + height, (row, bytes) => {
            const at = (row - y) * width;
            if (bytes) {
                Drawing.putRow(pels, at, bytes, x, width);
            } else {
                pels.fill(Drawing.GREY, at, at + width);
            }
        });
        return pels;
    }

    /** Puts the black pels of a row into white ones, from the beginning of a byte on.
     * @param {Uint32Array} pels @param {number} at @param {Uint8Array} bytes @param {number} x
     * @param {number} width */
    static putRow(pels, at, bytes, x, width) {
        const black = Drawing.BLACK;
        for (let pel = 0, byte = x >> 3; pel < width; pel += 8, byte++) {
            let bits = bytes[byte];
            if (bits !== 0 && pel + 8 > width) {
                bits &= 0xff00 >> (width - pel);
            }
            while (bits !== 0) {
                const next = Math.clz32(bits) - 24;
                pels[at + pel + next] = black;
                bits ^= 0x80 >> next;
            }
        }
    }

    /** A page in small, of the size of a box at most; none where the page is too long.
     * @param {number} page @param {number} most */
    small(page, most) {
        const form = this.library.form(page);
        if (!form || form.rows > Drawing.MOST_ROWS) {
            return null;
        }
        const high = form.rows * form.shape;
        const scale = Math.min(1, most / Math.max(form.width, high));
        const width = Math.max(1, Math.min(form.stride, Math.round(form.width * scale)));
        const height = Math.max(1, Math.min(form.rows, Math.round(high * scale)));
        const cells = new Cells(form, width, height);
        this.eachRow(page, form, 0, form.rows, (row, bytes) => cells.add(row, bytes));
        return { width, height, pels: cells.pels() };
    }
}

/** Counts the black pels of a part of a page in cells of so many pels across and rows down. */
class Shrunk {
    /** Ink is drawn darker than it is, so that thin strokes are seen. */
    static INK = 1.4;

    /** @param {number} x @param {number} width @param {number} height @param {number} across @param {number} down */
    constructor(x, width, height, across, down) {
        this.x = x;
        this.width = width;
        this.height = height;
        this.across = across;
        this.down = down;
        this.columns = Math.ceil(width / across);
        /** The column of each pel. */
        this.column = Uint32Array.from({ length: width }, (_, pel) => Math.floor(pel / across));
        this.black = new Uint32Array(this.columns * Math.ceil(height / down));
        /** How many rows of each line are found. */
        this.found = new Uint32Array(Math.ceil(height / down));
        /** @type {Map<number, number[]>} */
        this.known = new Map();
    }

    /** @param {number} row @param {Uint8Array | null} bytes */
    add(row, bytes) {
        const { x, width, black, column } = this;
        const line = Math.floor(row / this.down);
        const first = line * this.columns;
        if (!bytes) {
            return;
        }
        this.found[line]++;
        for (let pel = 0, byte = x >> 3; pel < width; pel += 8, byte++) {
            let bits = bytes[byte];
            if (bits !== 0 && pel + 8 > width) {
                bits &= 0xff00 >> (width - pel);
            }
            while (bits !== 0) {
                const next = Math.clz32(bits) - 24;
                black[first + column[pel + next]]++;
                bits ^= 0x80 >> next;
            }
        }
    }

    /** A shade of the rows that are found; the grey of lost rows where none is. */
    pels() {
        const { black, columns, across, width } = this;
        const pels = new Uint32Array(black.length).fill(Drawing.WHITE);
        const narrow = width - (columns - 1) * across;
        this.found.forEach((found, line) => {
            const [first, last] = [line * columns, (line + 1) * columns - 1];
            if (found === 0) {
                pels.fill(Drawing.GREY, first, last + 1);
                return;
            }
            const shades = this.shades(across * found);
            for (let cell = first; cell < last; cell++) {
                if (black[cell] > 0) {
                    pels[cell] = shades[black[cell]];
                }
            }
            pels[last] = this.shades(narrow * found)[black[last]];
        });
        return pels;
    }

    /** The shades of cells of so many pels, for each number of black ones.
     * @param {number} all */
    shades(all) {
        const shades = this.known.get(all) ??
            Array.from({ length: all + 1 }, (_, black) => Shrunk.shade((Shrunk.INK * black) / all));
        this.known.set(all, shades);
        return shades;
    }

    /** @param {number} ink from 0, which is white, to 1 or more, which is black */
    static shade(ink) {
        const grey = Math.round(255 * (1 - Math.min(1, ink)));
        return (0xff000000 | (grey << 16) | (grey << 8) | grey) >>> 0;
    }
}

/** Counts the black pels of a page in cells, whose columns are whole bytes. */
class Cells {
    static INK = 1.6;
    static COUNTS = Uint8Array.from({ length: 256 }, (_, byte) => {
        let count = 0;
        for (let bits = byte; bits; bits >>= 1) {
            count += bits & 1;
        }
        return count;
    });

    /** @param {Form} form @param {number} width @param {number} height */
    constructor(form, width, height) {
        this.form = form;
        this.width = width;
        this.height = height;
        this.black = new Uint32Array(width * height);
        /** How many pels of each cell are of rows that are found. */
        this.all = new Uint32Array(width * height);
        this.ends = Uint32Array.from({ length: width }, (_, column) =>
            Math.floor(((column + 1) * form.stride) / width));
    }

    /** @param {number} row @param {Uint8Array | null} bytes */
    add(row, bytes) {
        const line = Math.floor((row * this.height) / this.form.rows) * this.width;
        for (let column = 0, at = 0; bytes && column < this.width; column++) {
            const cell = line + column;
            this.all[cell] += 8 * (this.ends[column] - at);
            for (; at < this.ends[column]; at++) {
                this.black[cell] += Cells.COUNTS[bytes[at]];
            }
        }
    }

    /** The cells, a number for each: a shade of the rows that are found, in which ink is drawn darker than it is, so
     * that it is seen in small; the grey of lost rows where none is found. */
    pels() {
        return Uint32Array.from(this.black, (black, cell) =>
            this.all[cell] ? Shrunk.shade((Cells.INK * black) / this.all[cell]) : Drawing.GREY);
    }
}
