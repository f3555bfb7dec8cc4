"use strict";

/** The pages that are meant where a fax is printed or saved: those that a field names, or all where it is empty. */
class Choosing {
    /** @param {HTMLInputElement} field @param {() => void} entered once Enter was pressed in it */
    constructor(field, entered) {
        this.field = field;
        field.addEventListener("keydown", (event) => {
            if (event.key === "Enter") {
                entered();
            }
        });
    }

    /** The pages that a text names, from 0, as '1-3, 5' does; all where it is empty, and nothing where it names others.
     * @param {string} text @param {number[]} pages that there are
     * @returns {number[] | null} */
    static named(text, pages) {
        const last = (pages[pages.length - 1] ?? -1) + 1;
        /** @type {Set<number>} */
        const wanted = new Set();
        for (const part of text.split(",").map((it) => it.trim()).filter(Boolean)) {
            const [, from, to] = /^(\d+)\s*(?:[-–]\s*(\d+))?$/.exec(part) ?? [];
            const [first, end] = [Number(from), Number(to ?? from)];
            if (!(first >= 1 && first <= end && end <= last)) {
                return null;
            }
            for (let page = first; page <= end; page++) {
                wanted.add(page - 1);
            }
        }
        return wanted.size > 0 ? pages.filter((page) => wanted.has(page)) : text.trim() ? null : pages;
    }

    /** Pages as a text names them, the shortest one.
     * @param {number[]} pages in their order */
    static text(pages) {
        /** @type {[number, number][]} */
        const parts = [];
        for (const page of pages) {
            const last = parts[parts.length - 1];
            if (last && last[1] === page - 1) {
                last[1] = page;
            } else {
                parts.push([page, page]);
            }
        }
        return parts.map(([from, to]) => (from === to ? sayPage(from) : `${sayPage(from)}-${sayPage(to)}`)).join(",");
    }

    clear() {
        this.field.value = "";
    }

    /** The pages of a fax that are meant: all that can be shown, unless some are named; nothing where none of these is.
     * @param {Fax} fax @returns {{ pages: number[] | null, isSome: boolean }} */
    of(fax) {
        const { value } = this.field;
        return { pages: Choosing.named(value, fax.shownPages()), isSome: value.trim() !== "" };
    }

    /** Adds a page, or takes it away.
     * @param {Fax} fax @param {number} page */
    toggle(fax, page) {
        const { pages, isSome } = this.of(fax);
        const before = isSome ? pages ?? [] : [];
        const after = before.includes(page) ? before.filter((it) => it !== page) : [...before, page];
        this.field.value = Choosing.text(after.sort((one, other) => one - other));
    }
}
