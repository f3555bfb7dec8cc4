"use strict";

/**
 * A PDF whose pages are images of MMR data: the few objects that it needs. A page of which rows are lost has two masks:
 * the lost rows are painted grey, and then what is black black.
 */
class Pdf {
    static GREY = 0.66;

    constructor() {
        /** The last object that was written; 1 and 2 are written at the end. */
        this.last = 2;
        /** @type {BlobPart[]} */
        this.parts = [];
        this.length = 0;
        /** @type {number[]} */
        this.places = [];
        /** @type {number[]} */
        this.pages = [];
        this.put("%PDF-1.4\n%\u00e2\u00e3\u00cf\u00d3\n");
    }

    /** @param {string | Blob} part */
    put(part) {
        const bytes = typeof part === "string" ? Uint8Array.from(part, (letter) => letter.charCodeAt(0)) : part;
        this.parts.push(bytes);
        this.length += bytes instanceof Blob ? bytes.size : bytes.length;
    }

    /** Objects 1 and 2 are written last: the catalogue, and the list of pages.
     * @param {number} number @param {string} text @param {Blob} [stream] */
    object(number, text, stream) {
        this.places[number] = this.length;
        this.put(`${number} 0 obj\n${text}\n`);
        if (stream) {
            this.put("stream\n");
            this.put(stream);
            this.put("\nendstream\n");
        }
        this.put("endobj\n");
    }

    /** Inches of a length of pels. A unit that is none says only what shape a pel has.
     * @param {Form} form @param {number} pels @param {number} inUnit */
    static inches(form, pels, inUnit) {
        if (!(form.across > 0 && form.down > 0)) {
            return pels / 204;
        }
        return form.unit === 1 ? (pels / inUnit) * (form.across / 204) : pels / (inUnit * (form.unit === 3 ? 2.54 : 1));
    }

    /** @param {Form} form @param {number} turns quarters, by which a viewer turns the page @param {Blob} data
     * @param {Blob | null} lost of a raster whose lost rows are black */
    addPage(form, turns, data, lost) {
        const number = this.last + 1;
        const [across, down] = [Pdf.inches(form, form.width, form.across), Pdf.inches(form, form.rows, form.down)]
            .map((inches) => (72 * inches).toFixed(3));
        const drawn = new Blob([`q ${across} 0 0 ${down} 0 0 cm `, lost ? `${Pdf.GREY} g /L Do 0 g ` : "", "/I Do Q"]);
        this.pages.push(number);
        this.object(number, `<< /Type /Page /Parent 2 0 R /MediaBox [0 0 ${across} ${down}] ` +
            `${turns ? `/Rotate ${90 * turns} ` : ""}/Contents ${number + 1} 0 R /Resources << /XObject << ` +
            `/I ${number + 2} 0 R ${lost ? `/L ${number + 3} 0 R ` : ""}>> >> >>`);
        this.object(number + 1, `<< /Length ${drawn.size} >>`, drawn);
        this.image(number + 2, form, data, lost !== null);
        if (lost) {
            this.image(number + 3, form, lost, true);
        }
        this.last = number + (lost ? 3 : 2);
    }

    /** @param {number} number @param {Form} form @param {Blob} data @param {boolean} isMask */
    image(number, form, data, isMask) {
        this.object(number, `<< /Type /XObject /Subtype /Image /Width ${form.width} /Height ${form.rows} ` +
            `${isMask ? "/ImageMask true" : "/ColorSpace /DeviceGray"} /BitsPerComponent 1 /Filter /CCITTFaxDecode ` +
            `/DecodeParms << /K -1 /Columns ${form.width} /Rows ${form.rows} >> /Length ${data.size} >>`, data);
    }

    blob() {
        this.object(1, "<< /Type /Catalog /Pages 2 0 R >>");
        this.object(2, `<< /Type /Pages /Count ${this.pages.length} /Kids [${
            this.pages.map((number) => `${number} 0 R`).join(" ")}] >>`);
        const at = this.length;
        const lines = Array.from({ length: this.places.length - 1 }, (_, number) =>
            `${String(this.places[number + 1]).padStart(10, "0")} 00000 n \n`);
        this.put(`xref\n0 ${this.places.length}\n0000000000 65535 f \n${lines.join("")}`);
        this.put(`trailer\n<< /Size ${this.places.length} /Root 1 0 R >>\nstartxref\n${at}\n%%EOF\n`);
        return new Blob(this.parts, { type: "application/pdf" });
    }
}

/**
 * A page as a PNG, in its proportions: pels or rows are repeated where the resolutions differ, as faxpages-picture
 * does. Rows that are lost are grey.
 */
class Png {
    static MOST_PELS = 100000000;

    /** @param {Drawing} drawing @param {() => Promise<void>} pause */
    constructor(drawing, pause) {
        this.drawing = drawing;
        this.pause = pause;
    }

    /** @param {number} page @param {number} turns quarters to the right */
    async blob(page, turns) {
        const sent = this.drawing.library.form(page);
        const form = sent && turns % 2 ? Turning.formAcross(sent) : sent;
        const [across, down] = form?.repeats ?? [1, 1];
        if (!sent || !form || form.width * across * form.rows * down > Png.MOST_PELS) {
            throw Library.troubleOf("noPicture", page);
        }
        const bits = this.drawing.salvaging.isLossy(page, sent) ? 2 : 1;
        const turned = turns ? new Turning(this.drawing, page, sent, turns) : null;
        const packed = await Png.through(Png.stream("Compression"), this.lines(page, form, turned, bits));
        await this.compare(packed, page, this.lines(page, form, turned, bits));
        const head = new DataView(new ArrayBuffer(13));
        head.setUint32(0, form.width * across);
        head.setUint32(4, form.rows * down);
        head.setUint8(8, bits);
        return new Blob([
            Uint8Array.of(0x89, 0x50, 0x4e, 0x47, 13, 10, 26, 10), Png.chunk("IHDR", new Uint8Array(head.buffer)),
            ...Png.sizes(form, across, down), Png.chunk("IDAT", packed), Png.chunk("IEND", new Uint8Array(0)),
        ], { type: "image/png" });
    }

    /** How many pels of the picture a metre has, where the file says it.
     * @param {Form} form @param {number} across @param {number} down */
    static sizes(form, across, down) {
        const inUnit = { 2: 1 / 0.0254, 3: 100 }[form.unit];
        if (!inUnit || !(form.across > 0 && form.down > 0)) {
            return [];
        }
        const view = new DataView(new ArrayBuffer(9));
        view.setUint32(0, Math.round(form.across * across * inUnit));
        view.setUint32(4, Math.round(form.down * down * inUnit));
        view.setUint8(8, 1);
        return [Png.chunk("pHYs", new Uint8Array(view.buffer))];
    }

    /** The lines of the picture, each after a 0, in pieces: white is the highest number, and grey is 2 of 3.
     * @param {number} page @param {Form} form of the picture @param {Turning | null} turned the page, if it is turned
     * @param {number} bits */
    async *lines(page, form, turned, bits) {
        const [across, down] = form.repeats;
        const length = 1 + Math.ceil((form.width * across * bits) / 8);
        const step = Math.max(1, Math.floor(1000000 / (length * down)));
        for (let from = 0; from < form.rows; from += step) {
            const to = Math.min(form.rows, from + step);
            const piece = new Uint8Array((to - from) * down * length);
            const put = (/** @type {number} */ row, /** @type {(pel: number) => number} */ pelOf) => {
                const at = (row - from) * down * length;
                Png.putLine(piece.subarray(at + 1, at + length), pelOf, form.width, across, bits);
                for (let time = 1; time < down; time++) {
                    piece.copyWithin(at + time * length, at, at + length);
                }
            };
            for (let row = from; turned && row < to; row++) {
                const pels = turned.row(row);
                put(row, (pel) => pels[pel]);
            }
            if (!turned) {
                this.drawing.eachRow(page, form, from, to, (row, bytes) =>
                    put(row, (pel) => Turning.pelOf(bytes, pel)));
            }
            await this.pause();
            yield piece;
        }
    }

    /** @param {Uint8Array} line @param {(pel: number) => number} pelOf @param {number} width @param {number} across
     * @param {number} bits */
    static putLine(line, pelOf, width, across, bits) {
        const numbers = [(1 << bits) - 1, 0, 2];
        for (let pel = 0, at = 0; pel < width; pel++) {
            const number = numbers[pelOf(pel)];
            for (let time = 0; time < across; time++, at += bits) {
                line[at >> 3] |= number << (8 - bits - (at & 7));
            }
        }
    }

    /** Unpacks what was packed, and compares it with lines that are drawn anew.
     * @param {Uint8Array} packed @param {number} page @param {AsyncIterable<Uint8Array>} lines */
    async compare(packed, page, lines) {
        const again = await Png.through(Png.stream("Decompression"), [packed]);
        let at = 0;
        for await (const piece of lines) {
            if (!Saving.isEqual(piece, again.subarray(at, at + piece.length))) {
                throw Library.troubleOf("notWritten", page);
            }
            at += piece.length;
        }
        if (at !== again.length) {
            throw Library.troubleOf("notWritten", page);
        }
    }

    /** The browser's own packing, or unpacking.
     * @param {"Compression" | "Decompression"} kind */
    static stream(kind) {
        const scope = /** @type {any} */ (globalThis);
        return new scope[`${kind}Stream`]("deflate");
    }

    /** Sends pieces through a stream, and answers all that comes out.
     * @param {any} stream @param {Iterable<Uint8Array> | AsyncIterable<Uint8Array>} pieces */
    static async through(stream, pieces) {
        const all = new Response(stream.readable).arrayBuffer();
        const writer = stream.writable.getWriter();
        for await (const piece of pieces) {
            await writer.write(piece);
        }
        await writer.close();
        return new Uint8Array(await all);
    }

    static SUMS = Uint32Array.from({ length: 256 }, (_, byte) => {
        let sum = byte;
        for (let bit = 0; bit < 8; bit++) {
            sum = sum & 1 ? (sum >>> 1) ^ 0xedb88320 : sum >>> 1;
        }
        return sum;
    });

    /** @param {string} name @param {Uint8Array} data */
    static chunk(name, data) {
        const bytes = new Uint8Array(12 + data.length);
        const view = new DataView(bytes.buffer);
        view.setUint32(0, data.length);
        bytes.set(Uint8Array.from(name, (letter) => letter.charCodeAt(0)), 4);
        bytes.set(data, 8);
        let sum = 0xffffffff;
        for (let at = 4; at < 8 + data.length; at++) {
            sum = Png.SUMS[(sum ^ bytes[at]) & 255] ^ (sum >>> 8);
        }
        view.setUint32(8 + data.length, ~sum >>> 0);
        return bytes;
    }
}
