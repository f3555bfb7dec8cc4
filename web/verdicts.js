"use strict";

/** How much of a page, or of a fax, is missing. */
class Missing {
    /** Up to a tenth of its rows a page is readable as a rule, and beyond a half most of it is missing. */
    static SLIGHT = 10;
    static MOST = 2;

    /** @param {number} lost @param {number} rows @returns {"whole" | "slight" | "part" | "most"} */
    static level(lost, rows) {
        return lost === 0 ? "whole" : Missing.SLIGHT * lost <= rows ? "slight"
            : Missing.MOST * lost <= rows ? "part" : "most";
    }
}

/** What is said of a whole file once it was read: what is missing of it, and why. */
class Verdict {
    /** So many pages are named by their numbers. */
    static MOST_NAMED = 5;

    /** @param {Fax} fax */
    constructor(fax) {
        this.fax = fax;
        this.texts = TEXTS.verdicts;
    }

    text() {
        const { fax, texts } = this;
        const kind = fax.otherKind();
        if (kind) {
            return say(texts.other, ...sayOfKind(kind));
        }
        const told = this.told();
        if (fax.pages === 0) {
            return told || (fax.end ? say(texts.nothing, sayWhy(fax.end.name, fax.end.fault.tag)) : texts.noPage);
        }
        const parts = [told, ...(fax.told?.isOpen ? [] : this.missing()), this.refused(), this.others(), this.chain()];
        const said = parts.filter(Boolean).join(" ");
        const whole = said ? "" : say(
            fax.received.size ? texts.allThere : texts.whole, sayCount(fax.pages, "page"), sayCount(fax.rows, "row"));
        return [whole || said, ...this.received(), fax.cut.size ? texts.cut : ""].filter(Boolean).join(" ");
    }

    /** What is said of a file that was no TIFF file. */
    told() {
        const { fax, texts } = this;
        const { told } = fax;
        if (told?.kind === "images") {
            return `${say(texts.image, sayPage(told.image))} ${sayOfFault(told.name).join(" ")}`;
        }
        return told?.rows === 0 ? say(texts.bareNothing, told.name ? sayWhy(told.name) : texts.bareEnds)
            : told?.isOpen ? say(texts.bareOpen, told.rows, sayWhy(told.name)) : "";
    }

    /** What is said of the rows that are missing.
     * @returns {string[]} */
    missing() {
        const { fax, texts } = this;
        const { lostRows, mostly } = fax;
        const [lost, all] = [lostRows - mostly.lost, fax.rows + lostRows - mostly.rows];
        const said = mostly.pages.length > 0 ? [this.mostly()] : [];
        if (lost === 0) {
            return said;
        }
        const are = lost === 1 ? texts.is : texts.are;
        if (said.length > 0) {
            return [...said, say(texts.elsewhere, lost, all, are)];
        }
        const [first] = fax.lost.keys();
        const where = fax.pages === 1 ? "" : fax.lost.size === 1 ? say(texts.onPage, sayPage(first))
            : say(texts.onPages, fax.lost.size);
        return [say(fax.worst === "part" ? texts.partly : texts.readable, lost, all, are, where)];
    }

    /** What is said of pages of which most rows are missing. */
    mostly() {
        const { texts } = this;
        const { pages, lost, rows } = this.fax.mostly;
        if (pages.length === 1) {
            return lost === rows ? say(texts.allOfPage, sayPage(pages[0]), rows)
                : say(texts.mostOfPage, sayPage(pages[0]), lost, rows);
        }
        return pages.length > Verdict.MOST_NAMED
            ? say(texts.mostOfMany, pages.length, lost, rows, sayPage(pages[0]))
            : say(texts.mostOfPages, new Intl.ListFormat(TEXTS.locale).format(pages.map(sayPage)), lost, rows);
    }

    /** What is said of rows that the receiver counted as bad: it mended them, or left them. Where those of a page are
     * missing here too, that is said already.
     * @returns {string[]} */
    received() {
        const { fax, texts } = this;
        const all = [...fax.received].filter(([page, { isLeft }]) => !isLeft || !fax.lost.has(page));
        return [false, true].map((left) => {
            const pages = all.filter(([, { isLeft }]) => isLeft === left);
            const rows = pages.reduce((sum, [, { bad }]) => sum + (bad ?? 0), 0);
            const [ofPage, some, ofPages] = left ? texts.receivedBad : texts.mended;
            const [first] = pages;
            return !first ? "" : pages.length > 1 ? say(ofPages, sayCount(rows, "row"), pages.length)
                : say(rows > 0 ? ofPage : some, sayCount(rows, "row"), sayPage(first[0]));
        });
    }

    /** What is said of pages that are refused, and why the first of them is. */
    refused() {
        const { fax, texts } = this;
        const count = fax.refused.size - fax.others;
        const first = [...fax.refused].find(([, { kind }]) => !kind);
        if (count === 0 || !first) {
            return "";
        }
        const [page, { name, fault, isEmpty }] = first;
        const why = isEmpty ? texts.noRows : sayWhy(name, fault.tag);
        return count === 1 ? say(texts.refused, sayPage(page), why) : say(texts.manyRefused, count, sayPage(page), why);
    }

    others() {
        const { fax, texts } = this;
        return fax.others ? say(texts.others, fax.others, sayCount(fax.pages, "page")) : "";
    }

    /** What is said where the pages end before the file says so. */
    chain() {
        const { fax, texts } = this;
        return !fax.end ? "" : fax.end.name === "DirectoryLoop" ? texts.loop
            : say(texts.chain, String(fax.end.fault.page), sayWhy(fax.end.name, fax.end.fault.tag));
    }
}
