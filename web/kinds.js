"use strict";

/**
 * What a file, or a page, is that is no fax that is read here, and so need not be damaged: told by its bytes, and by
 * its own fields.
 *
 * @typedef {{ name: string, value: string }} Kind a name of TEXTS.kinds, and what is put into its text
 */
class Kinds {
    /** How files of other kinds begin.
     * @type {[string, string][]} */
    static HEADS = [
        ["%PDF-", "pdf"], ["\x89PNG\r\n", "png"], ["\xff\xd8\xff", "jpeg"], ["GIF8", "gif"], ["II+\0", "bigTiff"],
        ["MM\0+", "bigTiff"], ["PK\x03\x04", "zip"], ["%!PS", "postScript"], ["BM", "bmp"],
    ];
    /** @type {Record<number, string>} */
    static COMPRESSIONS = {
        5: "LZW", 6: "JPEG", 7: "JPEG", 8: "Deflate", 32773: "PackBits", 32946: "Deflate",
        34661: "JBIG", 34712: "JPEG 2000", 34925: "LZMA", 50000: "Zstandard", 50001: "WebP",
    };
    /** How mails begin. */
    static MAIL = /^(From |(Received|Return-Path|Delivered-To|From|To|Date|Subject|Message-ID|MIME-Version): )/i;
    static ROWS = 257;
    static BITS = 258;
    static COMPRESSION = 259;
    static STRIPS = 273;
    static SAMPLES = 277;
    static OPTIONS = [292, 293];
    static TILES = [322, 324];

    /** @param {Library} library */
    constructor(library) {
        this.library = library;
        /** Where directories stand, as far as they were looked for.
         * @type {number[]} */
        this.places = [];
        this.isLittle = this.head(2) === "II";
    }

    /** The first bytes, a letter each.
     * @param {number} count */
    head(count) {
        return String.fromCharCode(...this.library.bytes(this.library.file, Math.min(count, this.library.length)));
    }

    /** What a file is of which no page is found, if that is known.
     * @param {string} fault @returns {Kind | null} */
    ofFile(fault) {
        const name = this.library.length === 0 ? "empty"
            : Kinds.HEADS.find(([head]) => this.head(head.length) === head)?.[1] ??
                (/^[\t\n\r -~\x80-\xff]+$/.test(this.head(4096)) ? this.ofText() : "");
        const isOther = ["ShortHeader", "ByteOrder", "Magic", "UnknownInput"].includes(fault);
        return isOther && name ? { name, value: "" } : null;
    }

    /** What a text is: a mail has two of its fields at least, each on a line. */
    ofText() {
        const lines = this.head(4096).split(/\r?\n/).slice(0, 40);
        return Kinds.MAIL.test(lines[0]) && lines.filter((line) => Kinds.MAIL.test(line)).length > 1 ? "mail" : "text";
    }

    /** Whether a page is refused since it has no rows, as the last one of a call that was cut.
     * @param {Fault} fault @param {string} name */
    isEmpty(fault, name) {
        return name === "OutOfLimits" && fault.tag === Kinds.ROWS && this.valueOf(fault.page, Kinds.ROWS) === 0;
    }

    /** What a page is that is refused, if it is another kind of picture.
     * @param {Fault} fault @param {string} name @returns {Kind | null} */
    ofPage(fault, name) {
        if (name === "MissingField" && fault.tag === Kinds.STRIPS) {
            return this.has(fault.page, Kinds.TILES) ? { name: "tiles", value: "" } : null;
        }
        if (name !== "Unsupported") {
            return null;
        }
        const value = this.valueOf(fault.page, fault.tag);
        if (fault.tag === Kinds.COMPRESSION && value === 1) {
            return { name: "uncompressed", value: "" };
        }
        if (fault.tag === Kinds.COMPRESSION) {
            return { name: "compression", value: Kinds.COMPRESSIONS[value] ?? String(value) };
        }
        return { name: fault.tag === Kinds.BITS ? "bits" : fault.tag === Kinds.SAMPLES ? "colour"
            : Kinds.OPTIONS.includes(fault.tag) ? "mode" : "other", value: String(fault.tag) };
    }

    /** Where a directory stands; it is none where it cannot be found. Each is looked for once.
     * @param {number} page */
    place(page) {
        while (this.places.length <= page) {
            const last = this.places[this.places.length - 1];
            const at = last === undefined ? 4 : last + 2 + 12 * this.number(last, 2);
            this.places.push(this.number(at, 4));
        }
        return this.places[page];
    }

    /** A number of so many bytes; 0 outside the file.
     * @param {number} at @param {number} bytes */
    number(at, bytes) {
        if (at + bytes > this.library.length) {
            return 0;
        }
        const all = [...this.library.bytes(this.library.file + at, bytes)];
        return (this.isLittle ? all.reverse() : all).reduce((sum, byte) => 256 * sum + byte, 0);
    }

    /** Where the first field of a tag stands in the directory of a page, or -1.
     * @param {number} page @param {number[]} tags */
    field(page, tags) {
        const place = this.place(page);
        const count = this.number(place, 2);
        for (let at = place + 2; at < place + 2 + 12 * count; at += 12) {
            if (tags.includes(this.number(at, 2))) {
                return at;
            }
        }
        return -1;
    }

    /** @param {number} page @param {number[]} tags */
    has(page, tags) {
        return this.field(page, tags) >= 0;
    }

    /** The first value of a field that is short enough to stand in it.
     * @param {number} page @param {number} tag */
    valueOf(page, tag) {
        const at = this.field(page, [tag]);
        return at < 0 ? 0 : this.number(at + 8, this.number(at + 2, 2) === 3 ? 2 : 4);
    }
}
