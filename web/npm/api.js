/**
 * What callers see of all this stands in types.d.ts, with what it means.
 *
 * @typedef {import("./types").Page} Page
 * @typedef {import("./types").Row} Row
 * @typedef {import("./types").Runs} Runs
 * @typedef {import("./types").Note} Note
 * @typedef {import("./types").Received} Received
 * @typedef {import("./types").Lost} Lost
 * @typedef {import("./types").Salvaged} Salvaged
 * @typedef {import("./types").HowCoded} HowCoded
 * @typedef {import("./types").BareFax} BareFax
 * @typedef {import("./types").Picture} Picture
 * @typedef {import("./types").PageToWrite} PageToWrite
 * @typedef {import("./types").Bytes} Bytes
 */

/** The first fault of a file, in the words of the program. */
export class FaxFault extends Error {
    /** @param {string} name @param {Fault} fault @param {string} [place] of what is no TIFF file */
    constructor(name, { tag, page, row }, place = ` page ${page} row ${row}`) {
        super(`fault${place}: ${name}${tag ? ` ${tag}` : ""}`);
        /** The name of the fault, such as BadCode. */
        this.fault = name;
        this.tag = tag;
        /** What it means, in a sentence. */
        this.explanation = MEANINGS[`${name} ${tag}`] ?? MEANINGS[name] ?? "A fault of a later version.";
        this.page = page;
        this.row = row;
    }
}

// On the prototype, as the errors of JavaScript have it: so the text of the stack begins with it too.
Object.defineProperty(FaxFault.prototype, "name", { value: "FaxFault", configurable: true, writable: true });

/** Looks at what callers hand over: each refusal is one sentence. */
class Arguments {
    /** Kinds whose bytes are those of a file as they stand. */
    static BUFFERS = ["ArrayBuffer", "SharedArrayBuffer"];
    static VIEWS = ["Uint8Array", "Uint8ClampedArray", "Int8Array", "DataView"];

    /** @param {any} it */
    static kindOf(it) {
        return Object.prototype.toString.call(it).slice(8, -1);
    }

    /** The bytes of an argument, in the memory that they stand in.
     * @param {any} it @param {string} what it should be @returns {Uint8Array} */
    static bytes(it, what) {
        const kind = Arguments.kindOf(it);
        if (Arguments.BUFFERS.includes(kind)) {
            return new Uint8Array(it);
        }
        if (ArrayBuffer.isView(it) && Arguments.VIEWS.includes(kind)) {
            return new Uint8Array(it.buffer, it.byteOffset, it.byteLength);
        }
        throw new TypeError(`${what} is wanted as bytes, such as a Uint8Array, and ${Arguments.refusal(it, kind)}`);
    }

    /** @param {any} it @param {string} kind */
    static refusal(it, kind) {
        return typeof it === "string" ? "a text is none: read the file of this path first, as by readFileSync"
            : ArrayBuffer.isView(it) ? `${kind} has numbers of more than a byte: hand over the bytes themselves`
            : ["Blob", "File", "Response", "Request"].includes(kind)
                ? `a ${kind} is none: hand over what its arrayBuffer() gives, once it was awaited`
            : typeof it?.then === "function" ? "a promise is none: await it first"
            : it === undefined || it === null ? `${it} is none` : `${kind} is none`;
    }

    /** One of some words.
     * @template {string} T @param {any} it @param {readonly T[]} words @returns {T} */
    static word(it, words) {
        if (!words.includes(it)) {
            throw new TypeError(`${String(it)} is none of ${words.join(", ")}`);
        }
        return it;
    }

    /** A whole number within limits.
     * @param {any} it @param {string} what @param {number} least @param {number} most @returns {number} */
    static number(it, what, least, most) {
        if (typeof it !== "number") {
            throw new TypeError(`${what} is wanted as a number, and is ${typeof it}`);
        }
        if (!Number.isInteger(it) || it < least || it > most) {
            throw new RangeError(`${what} is a whole number from ${least} to ${most}, and not ${it}`);
        }
        return it;
    }

    /** @param {any} it @param {string} what @returns {any} */
    static object(it, what) {
        if (typeof it !== "object" || it === null) {
            throw new TypeError(`${what} is wanted as an object, and is ${it === null ? "null" : typeof it}`);
        }
        return it;
    }
}

/** The library faxpages, in WebAssembly: what its calls say of the bytes of a file. */
export class Faxpages {
    static TARGETS = /** @type {("pbm" | "mh" | "mr" | "mmr")[]} */ (["pbm", "mh", "mr", "mmr"]);
    /** Faults of a larger number are of a conversion. */
    static OF_FILES = 200;
    /** A picture has so many pels at most. */
    static MOST_PELS = 100000000;
    /** How a row that is lost is drawn. */
    static GREY = 168;

    /** @param {object} module of faxpages.wasm, compiled */
    constructor(module) {
        const isModule = Arguments.kindOf(module) === "WebAssembly.Module";
        const it = /** @type {WebAssembly.Module} */ (module);
        if (!isModule || !WebAssembly.Module.exports(it).some(({ name }) => name === "faxpages_forms")) {
            throw new TypeError("the library is wanted as the module of faxpages.wasm, and this is another thing");
        }
        this.module = it;
    }

    /** Loads the library: the file beside this one, or what is given.
     * @param {Bytes | object} [source] @returns {Promise<Faxpages>} */
    static async load(source) {
        if (Arguments.kindOf(source) === "WebAssembly.Module") {
            return new Faxpages(/** @type {object} */ (source));
        }
        const bytes = source === undefined ? await Faxpages.beside() : Arguments.bytes(source, "the library");
        return new Faxpages(await WebAssembly.compile(bytes));
    }

    /** @returns {Promise<BufferSource>} */
    static async beside() {
        const place = new URL("./faxpages.wasm", import.meta.url);
        if (place.protocol !== "file:") {
            return (await fetch(place)).arrayBuffer();
        }
        // Of Node alone: a name that no bundler looks for.
        const files = "node:fs/promises";
        const { readFile } = await import(/* webpackIgnore: true */ /* @vite-ignore */ files);
        return readFile(place);
    }

    /** @param {Bytes} file @param {string} [what] */
    opened(file, what = "a file") {
        const bytes = Arguments.bytes(file, what);
        if (bytes.length > Library.MOST_BYTES) {
            throw new RangeError(`a file has at most ${Library.MOST_BYTES} bytes`);
        }
        const library = new Library(this.module);
        library.bytes(library.takeFile(bytes.length), bytes.length).set(bytes);
        return library;
    }

    /** @param {Library} library @param {Fault} fault @param {string} [place] */
    static faultOf(library, fault, place) {
        return new FaxFault(library.name("fault", fault.number), fault, place);
    }

    /** @param {number} page @param {Form} form @returns {Page} */
    static pageOf(page, form) {
        return {
            page, width: form.width, rows: form.rows, order: form.order, photometric: form.exchanged,
            coding: /** @type {"mh" | "mr" | "mmr"} */ (Faxpages.TARGETS[form.coding]), strips: form.strips,
            across: [form.acrossAbove, form.acrossBelow], down: [form.downAbove, form.downBelow], unit: form.unit,
        };
    }

    /** The version of the library. */
    version() {
        const library = new Library(this.module);
        return String.fromCharCode(...library.bytes(library.out, library.calls.faxpages_version_text(library.out, 64)));
    }

    /** The pages up to the first fault of the file's directories, and that fault.
     * @param {Bytes} file @returns {{ pages: Page[], fault: FaxFault | null }} */
    list(file) {
        const library = this.opened(file);
        /** @type {Page[]} */
        const pages = [];
        for (;;) {
            const told = library.forms(pages.length);
            const numbers = library.numbers(library.out, Library.FORM_NUMBERS * told.count).slice();
            for (let at = 0; at < numbers.length; at += Library.FORM_NUMBERS) {
                pages.push(Faxpages.pageOf(pages.length, new Form(numbers.subarray(at, at + Library.FORM_NUMBERS))));
            }
            if (told.status === Library.FAULT) {
                return { pages, fault: Faxpages.faultOf(library, told.fault) };
            }
            if (told.status !== Library.DONE && told.status !== Library.NO_ROOM) {
                return { pages, fault: Faxpages.ended(told.status) };
            }
        }
    }

    /** None where a call came to an end; memory that was refused is an error, and so is a status that is not known.
     * @param {number} status */
    static ended(status) {
        if (status !== Library.END) {
            throw Library.refusal(status);
        }
        return null;
    }

    /** The rows, one by one, as bytes; the first fault is thrown in the place of its row.
     * @param {Bytes} file @returns {Generator<Row, void, void>} */
    rows(file) {
        return Faxpages.eachRow(this.opened(file), ({ page, row, bytes }) => ({ page, row, bytes: bytes.slice() }));
    }

    /** The same as runs: how many pels are white, then how many black, and so on to the width.
     * @param {Bytes} file @returns {Generator<Runs, void, void>} */
    runs(file) {
        return Faxpages.eachRow(this.opened(file), ({ page, row, bytes, width }) => ({ page, row,
            runs: Faxpages.runsOf(bytes, width) }));
    }

    /** @template T @param {Library} library
     * @param {(row: { page: number, row: number, bytes: Uint8Array, width: number }) => T} made
     * @returns {Generator<T, void, void>} */
    static *eachRow(library, made) {
        const cursor = library.cursor(0, 0);
        for (;;) {
            const told = library.readRows(cursor, Library.ROWS);
            for (let index = 0; index < told.count; index++) {
                yield made(library.row(index));
            }
            if (told.status === Library.FAULT) {
                throw Faxpages.faultOf(library, told.fault);
            }
            if (told.status !== Library.DONE && told.status !== Library.NO_ROOM) {
                Faxpages.ended(told.status);
                return;
            }
        }
    }

    /** @param {Uint8Array} bytes @param {number} width @returns {number[]} */
    static runsOf(bytes, width) {
        const runs = [];
        for (let pel = 0, from = 0, colour = 0; ;) {
            const byte = bytes[pel >> 3];
            if (pel >= width) {
                runs.push(width - from);
                return runs;
            }
            if ((pel & 7) === 0 && byte === (colour ? 255 : 0)) {
                pel += 8;
            } else if (((byte >> (7 - (pel & 7))) & 1) === colour) {
                pel++;
            } else {
                runs.push(pel - from);
                [from, colour] = [pel, 1 - colour];
            }
        }
    }

    /** Reads all rows: how many pages and rows there are before the first fault, and the notes on them.
     * @param {Bytes} file @returns {{ pages: number, rows: number, notes: Note[], fault: FaxFault | null }} */
    check(file) {
        const library = this.opened(file);
        const { pages, rows, notes, fault } = library.check(library.check(0).count);
        const told = Array.from({ length: notes.length / 3 }, (_, at) => {
            const [page, strip, number] = notes.subarray(3 * at, 3 * at + 3);
            return { page, strip: strip === Library.NO_STRIP ? null : strip, number,
                name: library.name("note", number) };
        });
        return { pages, rows, notes: told, fault: fault.number ? Faxpages.faultOf(library, fault) : null };
    }

    /** What the receiver of a page counted of bad rows: no row is looked at, and these fields are never a fault. Another
     * fault up to the page is thrown, and a RangeError where the file has no such page.
     * @param {Bytes} file @param {number} page from 0 @returns {Received} */
    received(file, page) {
        Arguments.number(page, "a page", 0, 4294967295);
        const library = this.opened(file);
        const { status, found: [badRows, clean, consecutive], fault } = library.received(page);
        if (status === Library.FAULT) {
            throw Faxpages.faultOf(library, fault);
        }
        if (status === Library.END || status === Library.OUTSIDE) {
            throw new RangeError(`the fax has no page ${page}: pages are numbered from 0`);
        }
        if (status !== Library.DONE) {
            throw Library.refusal(status);
        }
        return { badRows, clean, consecutive };
    }

    /** What is left, page by page, also after pages that are damaged or refused; then the fault that ends the chain of
     * pages is thrown, if there is one.
     * @param {Bytes} file @returns {Generator<Salvaged, void, void>} */
    salvage(file) {
        return Faxpages.eachPage(this.opened(file));
    }

    /** @param {Library} library @returns {Generator<Salvaged, void, void>} */
    static *eachPage(library) {
        for (let page = 0; ; page++) {
            const told = library.forms(page);
            const form = told.count > 0 ? library.form(page) : null;
            if (form) {
                yield Faxpages.left(library, page, form);
            } else if (told.status === Library.FAULT && told.fault.number >= 7 && told.fault.number <= 10) {
                const fault = Faxpages.faultOf(library, told.fault);
                yield { page, form: null, raster: new Uint8Array(0), lost: [], fault };
            } else if (told.status === Library.FAULT) {
                throw Faxpages.faultOf(library, told.fault);
            } else {
                Faxpages.ended(told.status);
                return;
            }
        }
    }

    /** @param {Library} library @param {number} page @param {Form} form @returns {Salvaged} */
    static left(library, page, form) {
        const { raster, stretches } = library.salvage(page, form);
        return { page, form: Faxpages.pageOf(page, form), lost: Faxpages.lostOf(library, stretches), fault: null,
            raster: library.bytes(raster, form.rows * form.stride).slice() };
    }

    /** @param {Library} library @param {Uint32Array} stretches @returns {Lost[]} */
    static lostOf(library, stretches) {
        return Array.from({ length: stretches.length / 3 }, (_, at) => {
            const [row, rows, number] = stretches.subarray(3 * at, 3 * at + 3);
            return { row, rows, name: library.name("fault", number) };
        });
    }

    /** A page as a picture, four bytes a pel: white, black, and grey where a row is lost.
     * @param {Bytes} file @param {number} [page] @param {{ square?: boolean }} [options] @returns {Picture} */
    rgba(file, page = 0, options = {}) {
        const library = this.opened(file);
        const form = Faxpages.formOf(library, Arguments.number(page, "a page", 0, 4294967295));
        const { square = true } = Arguments.object(options, "what is wanted of the picture");
        const [across, down] = square ? form.repeats : [1, 1];
        const [width, height] = [across * form.width, down * form.rows];
        if (width * height > Faxpages.MOST_PELS) {
            throw new RangeError(`a picture has at most ${Faxpages.MOST_PELS} pels, and page ${page} has more`);
        }
        const data = new Uint8ClampedArray(4 * width * height).fill(255);
        library.salvage(page, form).eachRow(0, form.rows, (row, bytes) => {
            const at = 4 * row * down * width;
            Faxpages.paint(data.subarray(at, at + 4 * width), bytes, form.width, across);
            for (let time = 1; time < down; time++) {
                data.copyWithin(at + 4 * time * width, at, at + 4 * width);
            }
        });
        return { width, height, data };
    }

    /** Paints a row of white: black where it is, or grey where it is lost.
     * @param {Uint8ClampedArray} line @param {Uint8Array | null} bytes @param {number} width @param {number} across */
    static paint(line, bytes, width, across) {
        for (let pel = 0; pel < width; pel++) {
            if (bytes && !(bytes[pel >> 3] & (0x80 >> (pel & 7)))) {
                continue;
            }
            for (let at = 4 * across * pel; at < 4 * across * (pel + 1); at += 4) {
                line.fill(bytes ? 0 : Faxpages.GREY, at, at + 3);
            }
        }
    }

    /** The form of a page that is there; the fault is thrown by which it is not.
     * @param {Library} library @param {number} page */
    static formOf(library, page) {
        const form = library.form(page);
        const told = form ? null : library.forms(page);
        if (told?.status === Library.FAULT) {
            throw Faxpages.faultOf(library, told.fault);
        }
        if (!form) {
            throw new RangeError(`the fax has no page ${page}: pages are numbered from 0`);
        }
        return form;
    }

    /** What is left of bare T.4 or T.6 data, and a TIFF-F file of it.
     * @param {Bytes} data @param {Partial<HowCoded> & { coding: "mh" | "mr" | "mmr" }} [how] guessed, if it is not said
     * @returns {BareFax} */
    bare(data, how) {
        const library = this.opened(data, "bare data");
        const importing = new Importing(this.module, library);
        const coded = how === undefined ? Faxpages.finished(new Guessing(library, importing).guess(""))
            : Faxpages.codedOf(how);
        if (!coded) {
            throw new RangeError("no coding finds rows in these data: say how they are coded");
        }
        const { left, coded: found, told } = Faxpages.finished(importing.bare(coded));
        if (told.rows > 0 && !left) {
            throw new RangeError("the data have more rows than are held at once");
        }
        const isOpen = told.isOpen ?? false;
        if (!left) {
            const fault = new FaxFault(told.name || "DataEnds", { number: 0, tag: 0, page: 0, row: 0 });
            return { page: 0, form: null, raster: new Uint8Array(0), lost: [], fault, how: Faxpages.howOf(found),
                file: new Uint8Array(0), isOpen };
        }
        const { form, raster, stretches } = left;
        return { page: 0, form: Faxpages.pageOf(0, form), lost: Faxpages.lostOf(library, stretches), fault: null,
            raster: library.bytes(raster, form.rows * form.stride).slice(), how: Faxpages.howOf(found), isOpen,
            file: library.bytes(library.file, library.length).slice() };
    }

    /** @template T @param {Generator<void, T, void>} steps @returns {T} */
    static finished(steps) {
        for (;;) {
            const step = steps.next();
            if (step.done) {
                return step.value;
            }
        }
    }

    /** @param {Partial<HowCoded>} how @returns {Bare} */
    static codedOf(how) {
        const { coding, width = 1728, rows = 0, order = 1, eols = true, aligned = false, fine } =
            Arguments.object(how, "how the data are coded");
        return {
            coding: Faxpages.TARGETS.indexOf(Arguments.word(coding, /** @type {const} */ (["mh", "mr", "mmr"]))),
            width: Arguments.number(width, "width", 1, 65535), rows: Arguments.number(rows, "rows", 0, 1000000),
            order: Arguments.number(order, "order", 1, 2), hasEols: coding !== "mh" || Boolean(eols),
            isAligned: Boolean(aligned), isFine: fine === undefined ? null : Boolean(fine),
        };
    }

    /** @param {Bare} bare @returns {HowCoded} */
    static howOf({ coding, width, rows, order, hasEols, isAligned, isFine }) {
        return { coding: /** @type {"mh" | "mr" | "mmr"} */ (Faxpages.TARGETS[coding]), width, rows, order,
            eols: hasEols, aligned: isAligned, fine: isFine ?? true };
    }

    /** Writes pages as a TIFF-F file, each in its resolution.
     * @param {Iterable<PageToWrite>} pages @param {"mh" | "mr" | "mmr"} [to] @returns {Uint8Array} */
    write(pages, to = "mmr") {
        const coding = Faxpages.TARGETS.indexOf(Arguments.word(to, /** @type {const} */ (["mh", "mr", "mmr"])));
        if (typeof pages !== "object" || pages === null || !(Symbol.iterator in pages) || ArrayBuffer.isView(pages)) {
            throw new TypeError("pages are wanted as a list of { form, raster }, such as salvage gives");
        }
        const library = new Library(this.module);
        const writing = new Writing(library, 0);
        for (const page of pages) {
            const { form, raster } = Faxpages.toWrite(page, writing.count);
            const at = library.room("raster", raster.length);
            library.bytes(at, raster.length).set(raster);
            writing.add(form.written(coding), at, form.stride);
        }
        if (writing.count === 0) {
            throw new RangeError("a fax has at least one page, and there is none");
        }
        const { at, length } = writing.end();
        return library.bytes(at, length).slice();
    }

    /** A page that is given to be written, looked at.
     * @param {any} page @param {number} number */
    static toWrite(page, number) {
        const given = Arguments.object(page, `page ${number}`).form;
        if (!given) {
            throw new TypeError(`page ${number} has no form: one that cannot be read is left out first`);
        }
        const width = Arguments.number(given.width, `the width of page ${number}`, 1, 65535);
        const rows = Arguments.number(given.rows, `the number of rows of page ${number}`, 1, 1000000);
        const [across, down] = [[given.across, 204], [given.down, 196]].map(([it, usual]) =>
            Faxpages.ratio(it ?? usual, `the resolution of page ${number}`));
        const unit = Arguments.number(given.unit ?? 2, `the unit of page ${number}`, 1, 3);
        const raster = Arguments.bytes(page.raster, `the raster of page ${number}`);
        const form = new Form(Uint32Array.of(width, rows, 1, 1, 0, 0, rows, 1, ...across, ...down, unit));
        if (raster.length !== rows * form.stride) {
            throw new RangeError(`the raster of page ${number} has ${raster.length} bytes, and ${rows} rows of ` +
                `${width} pels have ${rows * form.stride}`);
        }
        return { form, raster };
    }

    /** A fraction, or a whole number as one.
     * @param {any} it @param {string} what @returns {[number, number]} */
    static ratio(it, what) {
        const [above, below] = Array.isArray(it) ? it : [it, 1];
        return [Arguments.number(above, what, 0, 4294967295), Arguments.number(below, what, 0, 4294967295)];
    }

    /** Converts TIFF-F or raw PBM, whole or not at all: a fault is thrown.
     * @param {Bytes} file @param {"pbm" | "mh" | "mr" | "mmr"} to @returns {Uint8Array} */
    convert(file, to) {
        const target = Faxpages.TARGETS.indexOf(Arguments.word(to, Faxpages.TARGETS));
        const library = this.opened(file);
        const { status, at, length, image, fault } = library.convert(target);
        if (status === Library.FAULT) {
            // A fault of raw PBM has the number of its image, and what is neither has no place.
            const isImage = library.length > 1 && library.bytes(library.file, 2).join() === "80,52";
            const isOther = fault.number > Faxpages.OF_FILES && !isImage;
            throw Faxpages.faultOf(library, fault, isImage ? ` image ${image}` : isOther ? "" : undefined);
        }
        return Faxpages.output(library, status, at, length);
    }

    /** Writes a damaged file as a new one: lost rows are white, and counted in the fields 326 to 328. It is null where no page
     * has a form.
     * @param {Bytes} file @param {"pbm" | "mh" | "mr" | "mmr"} to @returns {Uint8Array | null} */
    salvagedFile(file, to) {
        const target = Faxpages.TARGETS.indexOf(Arguments.word(to, Faxpages.TARGETS));
        const library = this.opened(file);
        const { status, at, length, fault } = library.salvagedFile(target);
        if (status === Library.FAULT) {
            throw Faxpages.faultOf(library, fault, fault.number > Faxpages.OF_FILES ? "" : undefined);
        }
        return status === Library.END ? null : Faxpages.output(library, status, at, length);
    }

    /** The bytes of a file that was written.
     * @param {Library} library @param {number} status @param {number} at @param {number} length */
    static output(library, status, at, length) {
        if (status === Library.NO_ROOM) {
            throw new RangeError("the output would be too large");
        }
        if (status !== Library.DONE) {
            throw Library.refusal(status);
        }
        return library.bytes(at, length).slice();
    }
}
