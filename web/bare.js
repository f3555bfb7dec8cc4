"use strict";

/**
 * How bare T.4 or T.6 data are coded.
 *
 * @typedef {{ width: number, rows: number, coding: number, order: number, hasEols: boolean, isAligned: boolean,
 *     isFine: boolean | null }} Bare where nobody says the resolution, it is guessed by the number of rows
 */

/** Makes a fax of raw PBM, or of bare T.4 or T.6 data: these step by step, so that other calls come in between. */
class Importing {
    /** A page has so many rows at most. */
    static MOST_ROWS = 1000000;
    /** A page of fewer rows has the standard resolution, as a rule: A4 has 1,146 rows so, and 2,292 in fine. */
    static FINE = 1400;

    /** @param {WebAssembly.Module} module @param {Library} source */
    constructor(module, source) {
        this.module = module;
        this.source = source;
    }

    /** Of raw PBM. */
    images() {
        const { status, at, length, image, fault } = this.source.convert(Library.MMR);
        if (status === Library.DONE) {
            const library = new Library(this.module);
            library.bytes(library.takeFile(length), length).set(this.source.bytes(at, length));
            return { library, left: null, told: null };
        }
        if (status !== Library.FAULT && status !== Library.MEMORY) {
            throw Library.refusal(status);
        }
        const name = status === Library.FAULT ? this.source.name("fault", fault.number) : "Memory";
        return { library: null, left: null, told: { image, name } };
    }

    /** Of bare data: a TIFF file of one page around them, with what is left of that page.
     * @param {Bare} bare */
    *bare(bare) {
        const isAlone = bare.coding === Library.MMR ? bare.isAligned : !bare.hasEols;
        const found = isAlone ? yield* this.rowByRow(bare) : this.salvaged(bare);
        if (found.rows === 0) {
            const name = this.source.name("fault", found.fault);
            return { library: null, left: null, coded: bare, told: { rows: 0, name } };
        }
        // What follows the last row that was looked at is in no number of rows where nobody counted them.
        const isOpen = !bare.rows && found.fault !== 0 && (isAlone || bare.coding === Library.MMR);
        const coded = { ...bare, isFine: bare.isFine ?? (isOpen || found.all >= Importing.FINE) };
        const form = Wrapping.wrap(this.source, found.strip, coded, found.all);
        // A name takes the place of what was coded last: the strip was copied before.
        const name = found.fault ? this.source.name("fault", found.fault) : "";
        const left = found.raster ? new Left(this.source, form, found.raster, found.stretches) : null;
        return { library: this.source, left, coded, told: { rows: found.rows, name, isOpen } };
    }

    /** What is left of data whose rows have EOLs, or are MMR: as of a strip of a TIFF file.
     * @param {Bare} bare */
    salvaged(bare) {
        const { source } = this;
        const form = [bare.width, bare.rows, bare.coding, bare.order, 0];
        const { all, lost, raster, stretches, fault } = source.salvageStrip(source.file, source.length, form);
        const strip = { at: source.file, length: source.length, coding: bare.coding, order: bare.order };
        return { strip, all, rows: all - lost, raster, stretches, fault };
    }

    /** What is left of data whose rows are read one by one, up to the first fault, coded anew in MMR.
     * @param {Bare} bare */
    *rowByRow(bare) {
        const { source } = this;
        const stride = (bare.width + 7) >> 3;
        const { pieces, fault } = yield* this.rowsOf(bare);
        const rows = pieces.length;
        // A raster of more rows than have room has those alone that were found, and the next one.
        const hasRoom = bare.rows > 0 && bare.rows * stride <= Library.MOST_BYTES;
        const all = hasRoom ? bare.rows : Math.min(Importing.MOST_ROWS, rows + (fault ? 1 : 0));
        const raster = source.room("left", Math.max(1, all) * stride);
        source.bytes(raster, all * stride).fill(0);
        pieces.forEach((piece, row) => source.bytes(raster + row * stride, stride).set(piece));
        const numbers = [bare.width, Math.max(1, rows), Library.MMR, 1, 0, 0, rows, 1, 0, 1, 0, 1, 1];
        const form = new Form(Uint32Array.from(numbers));
        const coded = source.codeStrip(form, raster);
        if (coded.status !== Library.DONE) {
            throw Library.refusal(coded.status);
        }
        const stretches = Uint32Array.from(all > rows ? [rows, all - rows, fault] : []);
        return { strip: { at: coded.at, length: coded.length, coding: Library.MMR, order: 1 }, all, rows, raster,
            stretches, fault };
    }

    /** The rows of such data, and the fault that ends them, or 0.
     * @param {Bare} bare */
    *rowsOf(bare) {
        const { source } = this;
        const stride = (bare.width + 7) >> 3;
        const form = [bare.width, bare.rows, bare.coding, bare.order, 0];
        const cursor = source.cursor(0, 0);
        /** @type {Uint8Array[]} */
        const pieces = [];
        for (let most = bare.rows || Importing.MOST_ROWS; pieces.length < most;) {
            Importing.prepare(cursor, bare);
            const told = source.readStrip(source.file, source.length, form, cursor, source.out, stride, stride);
            if (![Library.DONE, Library.END, Library.FAULT, Library.OUTSIDE, Library.DATA_END].includes(told.status)) {
                throw Library.refusal(told.status);
            }
            if (told.count > 0) {
                pieces.push(source.bytes(source.out, stride).slice());
            }
            if (told.status !== Library.DONE) {
                return { pieces, fault: this.endOf(told, pieces.length, bare, cursor) };
            }
            if (pieces.length % 500 === 499) {
                yield;
            }
        }
        return { pieces, fault: bare.rows ? 0 : Library.TOO_MANY_ROWS };
    }

    /** Where rows have no EOLs, the next one may begin on a byte, or is read as a strip's first.
     * @param {Cursor} cursor @param {Bare} bare */
    static prepare(cursor, bare) {
        const place = cursor.library.numbers(cursor.at, 4);
        if (bare.isAligned) {
            place[2] = (place[2] + 7) & ~7;
        }
        if (!bare.hasEols) {
            place[1] = 0;
        }
    }

    /** The fault that ends rows that are read one by one, or 0 where they end as they should.
     * @param {Told} told @param {number} rows @param {Bare} bare @param {Cursor} cursor */
    endOf(told, rows, bare, cursor) {
        const isOver = told.status === Library.FAULT && told.fault.number === Library.DATA_ENDS && !bare.hasEols &&
            !bare.rows && rows > 0 && this.isBlank(cursor, bare);
        const isShort = told.status !== Library.FAULT && rows < bare.rows;
        return isShort ? Library.DATA_ENDS : told.status === Library.FAULT && !isOver && rows !== bare.rows
            ? told.fault.number : 0;
    }

    /** Whether nothing but zeros stands after a cursor.
     * @param {Cursor} cursor @param {Bare} bare */
    isBlank(cursor, bare) {
        const bits = this.source.numbers(cursor.at, 3)[2];
        const rest = this.source.bytes(this.source.file, this.source.length).slice(bits >> 3);
        if (rest.length > 0) {
            rest[0] &= bare.order === 1 ? 0xff >> (bits & 7) : (0xff << (bits & 7)) & 0xff;
        }
        return rest.every((byte) => byte === 0);
    }
}

/** Writes a TIFF file of one page around a strip, so that bare data are read as any other fax. */
class Wrapping {
    /** The bytes that a page takes beside its strip, at most. */
    static MORE = 256;
    static SHORT = 3;
    static LONG = 4;
    static RATIO = 5;

    /** Has a library read this file, and answers the form of its page.
     * @param {Library} library @param {{ at: number, length: number, coding: number, order: number }} strip
     * @param {Bare} bare @param {number} rows */
    static wrap(library, strip, bare, rows) {
        const at = library.room("wrapped", strip.length + Wrapping.MORE);
        const place = 8 + strip.length + (strip.length & 1);
        library.bytes(at, strip.length + Wrapping.MORE).fill(0);
        library.bytes(at + 8, strip.length).set(library.bytes(strip.at, strip.length));
        const fields = Wrapping.fields(strip, bare, rows);
        const ratios = place + 2 + 12 * fields.length + 4;
        const view = new DataView(library.memory.buffer, at, strip.length + Wrapping.MORE);
        [0x4949, 42].forEach((number, index) => view.setUint16(2 * index, number, true));
        view.setUint32(4, place, true);
        view.setUint16(place, fields.length, true);
        fields.forEach(([tag, kind, value], index) => {
            const entry = place + 2 + 12 * index;
            view.setUint16(entry, tag, true);
            view.setUint16(entry + 2, kind, true);
            view.setUint32(entry + 4, 1, true);
            view.setUint32(entry + 8, kind === Wrapping.RATIO ? ratios + value : value, true);
        });
        [204, 1, bare.isFine ? 196 : 98, 1].forEach((number, index) =>
            view.setUint32(ratios + 4 * index, number, true));
        library.file = at;
        library.length = ratios + 16;
        return /** @type {Form} */ (library.form(0));
    }

    /** The fields of the page, each a tag, a type and a value; of a ratio, where it stands after the directory.
     * @param {{ length: number, coding: number, order: number }} strip @param {Bare} bare @param {number} rows */
    static fields(strip, bare, rows) {
        const isMmr = strip.coding === Library.MMR;
        const { SHORT, LONG, RATIO } = Wrapping;
        return [
            [256, LONG, bare.width], [257, LONG, rows], [258, SHORT, 1], [259, SHORT, isMmr ? 4 : 3], [262, SHORT, 0],
            [266, SHORT, strip.order], [273, LONG, 8], [277, SHORT, 1], [278, LONG, rows], [279, LONG, strip.length],
            [282, RATIO, 0], [283, RATIO, 8],
            ...(strip.coding === Library.MR ? [[292, LONG, 1]] : []), [296, SHORT, 2],
        ];
    }
}

/** Guesses how bare data are coded: as most of the first rows are found. */
class Guessing {
    /** So many rows, and so many bytes, are looked at. */
    static ROWS = 1200;
    static BYTES = 1 << 20;
    /** Rows without EOLs are found in any data: so many have to be found, or the name says that it is a fax. */
    static LEAST = 20;
    static LEAST_WITH_EOLS = 2;
    /** The widths of T.30, of which nearly all faxes have the first. */
    static WIDTHS = [1728, 2048, 2432, 3456, 4096, 4864];
    static NAMES = /\.(g3|g4|t4|t6|fax)$/i;

    /** @param {Library} library @param {Importing} importing */
    constructor(library, importing) {
        this.library = library;
        this.importing = importing;
    }

    /** How data are coded, or nothing, if they do not look like a fax.
     * @param {string} name of the file @returns {Generator<void, Bare | null, void>} */
    *guess(name) {
        const { length } = this.library;
        this.library.length = Math.min(length, Guessing.BYTES);
        let best = { found: 0, bare: /** @type {Bare | null} */ (null) };
        for (const width of Guessing.WIDTHS) {
            for (const bare of Guessing.ways(width)) {
                const found = yield* this.found(bare);
                if (found > best.found && (found >= Guessing.least(bare) || Guessing.NAMES.test(name))) {
                    best = { found, bare };
                }
            }
            if (best.bare) {
                break;
            }
        }
        this.library.length = length;
        return best.bare;
    }

    /** @param {Bare} bare */
    static least(bare) {
        return bare.coding !== Library.MMR && bare.hasEols ? Guessing.LEAST_WITH_EOLS : Guessing.LEAST;
    }

    /** The ways in which data of a width may be coded, the usual ones first.
     * @param {number} width @returns {Bare[]} */
    static ways(width) {
        const { MH, MR, MMR } = Library;
        const all = [[MH, true, false], [MR, true, false], [MMR, true, false], [MH, false, false], [MH, false, true],
            [MMR, true, true]];
        return all.flatMap(([coding, hasEols, isAligned]) => [1, 2].map((order) => ({
            width, rows: 0, coding: Number(coding), order, hasEols: Boolean(hasEols), isAligned: Boolean(isAligned),
            isFine: null })));
    }

    /** How many of the first rows are found.
     * @param {Bare} bare */
    *found(bare) {
        const { library } = this;
        yield;
        const counted = { ...bare, rows: Guessing.ROWS };
        if (bare.coding === Library.MMR ? bare.isAligned : !bare.hasEols) {
            return (yield* this.importing.rowsOf(counted)).pieces.length;
        }
        const { all, lost } = library.salvageStrip(library.file, library.length,
            [bare.width, Guessing.ROWS, bare.coding, bare.order, 0]);
        return all - lost;
    }
}
