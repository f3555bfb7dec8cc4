"use strict";

/** A page that is turned as it is shown, by its pels. */
class Turning {
    static WHITE = 0;
    static BLACK = 1;
    /** Of a row that is lost. */
    static LOST = 2;
    /** So many pels are held at most. */
    static MOST_PELS = 100000000;

    /** @param {Drawing} drawing @param {number} page @param {Form} form of the page as it was sent
     * @param {number} turns quarters to the right */
    constructor(drawing, page, form, turns) {
        const { width, rows } = form;
        if (width * rows > Turning.MOST_PELS) {
            throw Library.troubleOf("noTurning", page);
        }
        this.form = turns % 2 ? Turning.formAcross(form) : form;
        this.pels = new Uint8Array(width * rows);
        /** Where the first pel goes, the next one of its row, and the one below it. */
        const [first, right, down] = [
            [0, 1, width], [rows - 1, rows, -1], [width * rows - 1, -1, -width], [(width - 1) * rows, -rows, 1],
        ][turns % 4];
        drawing.eachRow(page, form, 0, rows, (row, bytes) => {
            let at = first + row * down;
            for (let pel = 0; pel < width; pel++, at += right) {
                this.pels[at] = Turning.pelOf(bytes, pel);
            }
        });
    }

    /** @param {Uint8Array | null} bytes of a row, or none where it is lost @param {number} pel */
    static pelOf(bytes, pel) {
        return !bytes ? Turning.LOST : bytes[pel >> 3] & (0x80 >> (pel & 7)) ? Turning.BLACK : Turning.WHITE;
    }

    /** The form of a page that lies on its side: its rows are columns.
     * @param {Form} form */
    static formAcross({ numbers }) {
        const across = numbers.slice();
        across.set([numbers[1], numbers[0]]);
        across.set([...numbers.subarray(10, 12), ...numbers.subarray(8, 10)], 8);
        return new Form(across);
    }

    /** The pels of a row.
     * @param {number} row */
    row(row) {
        return this.pels.subarray(row * this.form.width, (row + 1) * this.form.width);
    }

    /** Puts the page into a raster, lost pels white.
     * @param {Uint8Array} raster */
    pack(raster) {
        raster.fill(0);
        for (let row = 0, at = 0; row < this.form.rows; row++) {
            for (let pel = 0; pel < this.form.width; pel++, at++) {
                if (this.pels[at] === Turning.BLACK) {
                    raster[row * this.form.stride + (pel >> 3)] |= 0x80 >> (pel & 7);
                }
            }
        }
    }
}
