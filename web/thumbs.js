"use strict";

/** Pages in small: each is drawn once, few at a time, and the last ones are kept. */
class Smalls {
    static MOST = 112;
    static KEPT = 200;
    static AT_ONCE = 2;

    constructor() {
        this.queue = new Queue(Smalls.AT_ONCE);
        /** @type {Map<number, { width: number, height: number, pels: Uint32Array } | null>} */
        this.kept = new Map();
        /** Pages that are drawn now.
         * @type {Set<number>} */
        this.asked = new Set();
        /** @type {Fax | null} */
        this.fax = null;
        this.reading = 0;
        /** Is called with a page that is there in small now, or that has no picture.
         * @type {(page: number) => void} */
        this.changed = () => {};
    }

    /** Those of another fax, or of another reading of it, are forgotten.
     * @param {Fax | null} fax */
    show(fax) {
        const reading = fax?.reading ?? 0;
        if (this.fax !== fax || this.reading !== reading) {
            this.fax = fax;
            this.reading = reading;
            this.kept.clear();
            this.asked = new Set();
        }
    }

    /** Whether as many are drawn as may be at a time. */
    isBusy() {
        return this.queue.running >= Smalls.AT_ONCE;
    }

    /** Uses a page in small: at once, if it is there, or once it was drawn. An answer that comes once another fax, or
     * another reading of it, is shown is dropped.
     * @param {number} page @param {() => boolean} isWanted
     * @param {(small: { width: number, height: number, pels: Uint32Array }) => void} use */
    want(page, isWanted, use) {
        const { reading, asked } = this;
        const fax = /** @type {Fax} */ (this.fax);
        const isMine = () => this.fax === fax && this.reading === reading && fax.reading === reading;
        const useIt = () => {
            const small = this.kept.get(page);
            if (small && isWanted()) {
                use(small);
            }
        };
        if (this.kept.has(page)) {
            useIt();
            return;
        }
        this.queue.add(() => isMine() && isWanted(), async () => {
            if (!this.kept.has(page) && fax.form(page)) {
                asked.add(page);
                const small = await fax.ask("small", { page, most: Smalls.MOST }).finally(() => asked.delete(page));
                if (!isMine()) {
                    return;
                }
                this.keep(page, small);
            }
            useIt();
        });
    }

    /** @param {number} page @param {any} small */
    keep(page, small) {
        if (this.kept.size >= Smalls.KEPT) {
            this.kept.delete(/** @type {number} */ (this.kept.keys().next().value));
        }
        this.kept.set(page, small);
        this.changed(page);
    }
}

/** A list of all pages in small, of which only those in sight have an element. */
class Thumbs {
    static HIGH = 156;

    /** @param {HTMLElement} box @param {HTMLElement} all @param {Smalls} smalls
     * @param {(page: number) => void} choose @param {(page: number) => void} pick by the mouse with Ctrl */
    constructor(box, all, smalls, choose, pick) {
        this.box = box;
        this.all = all;
        this.smalls = smalls;
        /** @type {Map<number, HTMLElement>} */
        this.items = new Map();
        /** @type {Fax | null} */
        this.fax = null;
        this.reading = 0;
        this.page = -1;
        /** @type {Set<number>} */
        this.picked = new Set();
        box.addEventListener("scroll", () => this.fill());
        new ResizeObserver(() => this.fill()).observe(box);
        all.addEventListener("click", (event) => {
            const item = /** @type {HTMLElement} */ (event.target).closest("[role=option]");
            if (item) {
                const page = Number(/** @type {HTMLElement} */ (item).dataset.page);
                (event.ctrlKey || event.metaKey ? pick : choose)(page);
            }
        });
    }

    /** Takes the room that it needs.
     * @param {Fax | null} fax */
    lay(fax) {
        const pages = fax?.pages ?? 0;
        this.all.style.height = `${pages * Thumbs.HIGH}px`;
        this.box.hidden = pages < 2;
    }

    /** @param {Fax | null} fax @param {number} page @param {Set<number>} picked pages, to be printed or saved */
    show(fax, page, picked) {
        this.picked = picked;
        const reading = fax?.reading ?? 0;
        if (this.fax !== fax || this.reading !== reading) {
            this.fax = fax;
            this.reading = reading;
            this.smalls.show(fax);
            this.items.clear();
            this.all.replaceChildren();
            this.page = -1;
        }
        const hasMoved = this.page !== page;
        this.page = page;
        if (hasMoved) {
            this.bringIntoSight(page);
        }
        this.fill();
    }

    /** @param {number} page */
    bringIntoSight(page) {
        const [top, bottom] = [page * Thumbs.HIGH, (page + 1) * Thumbs.HIGH];
        if (top < this.box.scrollTop || bottom > this.box.scrollTop + this.box.clientHeight) {
            this.box.scrollTop = Math.max(0, top - this.box.clientHeight / 2 + Thumbs.HIGH / 2);
        }
    }

    /** Gives the pages in sight their items, and takes away the others. */
    fill() {
        const pages = this.fax?.pages ?? 0;
        const first = Math.max(0, Math.floor(this.box.scrollTop / Thumbs.HIGH) - 1);
        const last = Math.min(pages, Math.ceil((this.box.scrollTop + this.box.clientHeight) / Thumbs.HIGH) + 1);
        for (const [page, item] of this.items) {
            if (page < first || page >= last) {
                item.remove();
                this.items.delete(page);
            }
        }
        for (let page = first; page < last; page++) {
            this.dress(page, this.items.get(page) ?? this.make(page));
        }
        this.box.setAttribute("aria-activedescendant", this.items.has(this.page) ? `thumb-${this.page}` : "");
    }

    /** @param {number} page */
    make(page) {
        const item = document.createElement("div");
        item.id = `thumb-${page}`;
        item.dataset.page = String(page);
        item.setAttribute("role", "option");
        item.style.top = `${page * Thumbs.HIGH}px`;
        const canvas = document.createElement("canvas");
        canvas.width = canvas.height = 1;
        const label = document.createElement("span");
        item.append(canvas, label);
        this.items.set(page, item);
        this.all.append(item);
        this.smalls.want(page, () => this.items.get(page) === item, ({ pels, width, height }) =>
            putPels(canvas, pels.slice(), width, height));
        return item;
    }

    /** @param {number} page @param {HTMLElement} item */
    dress(page, item) {
        const fax = /** @type {Fax} */ (this.fax);
        const state = fax.stateOf(page);
        const label = /** @type {HTMLElement} */ (item.lastElementChild);
        const said = fax.sayState(page);
        const text = state === "whole" ? sayPage(page) : `${sayPage(page)}: ${said}`;
        if (label.textContent !== text) {
            label.textContent = text;
        }
        item.className = this.picked.has(page) ? `${state} picked` : state;
        item.setAttribute("aria-selected", String(page === this.page));
        item.setAttribute("aria-setsize", String(fax.pages));
        item.setAttribute("aria-posinset", String(page + 1));
        item.setAttribute("aria-label", say(TEXTS.pages.label, sayPage(page), fax.pages, said));
    }
}
