"use strict";

/** Asks a worker for pictures, few at a time, so that those that are not wanted any more are never asked for. */
class Queue {
    /** @param {number} most at once */
    constructor(most) {
        this.most = most;
        this.running = 0;
        /** @type {{ isWanted: () => boolean, run: () => Promise<void> }[]} */
        this.waiting = [];
    }

    /** @param {() => boolean} isWanted @param {() => Promise<void>} run */
    add(isWanted, run) {
        this.waiting.push({ isWanted, run });
        this.next();
    }

    /** Runs a job; once more where the worker was ended while it ran.
     * @param {any} job */
    async run(job) {
        try {
            await job.run();
        } catch (error) {
            if (error instanceof Stopped && job.isWanted()) {
                this.waiting.push(job);
            }
        }
    }

    next() {
        while (this.running < this.most && this.waiting.length > 0) {
            const job = /** @type {any} */ (this.waiting.shift());
            if (job.isWanted()) {
                this.running++;
                this.run(job).finally(() => {
                    this.running--;
                    this.next();
                });
            }
        }
    }
}

/** @param {HTMLCanvasElement} canvas @param {Uint32Array} pels @param {number} width @param {number} height */
function putPels(canvas, pels, width, height) {
    canvas.width = width;
    canvas.height = height;
    const data = new ImageData(new Uint8ClampedArray(pels.buffer), width, height);
    canvas.getContext("2d", { alpha: false })?.putImageData(data, 0, 0);
}

/** A page that cannot be read: it has its place among the others, and says so. */
class Blank {
    static HIGH = 96;
    static WIDE = 360;

    /** @param {Fax} fax @param {number} page */
    constructor(fax, page) {
        this.fax = fax;
        this.page = page;
        this.element = document.createElement("div");
    }

    /** @param {boolean} isCurrent */
    dress(isCurrent) {
        const said = say(TEXTS.pages.label, sayPage(this.page), this.fax.pages, this.fax.sayState(this.page));
        this.element.className = isCurrent ? "sheet blank current" : "sheet blank";
        this.element.setAttribute("aria-hidden", String(!isCurrent));
        if (this.element.textContent !== said) {
            this.element.textContent = said;
        }
    }

    remove() {
        this.element.remove();
    }

    /** @param {number} across how wide the view is */
    lay(across) {
        const wide = Math.max(50, Math.min(Blank.WIDE, across - 2 * Roll.GAP));
        this.element.style.width = `${wide}px`;
        this.element.style.height = `${Blank.HIGH}px`;
        return wide;
    }
}

/**
 * Shows the pages of a fax below each other, under one bar that scrolls over all. Those in sight, and next to it, stand
 * there (`sheet.js`); all have their places (`roll.js`). What comes next is drawn ahead, and pages in small stand in
 * for what is not drawn yet.
 */
class View {
    /** So many pels are in sight at most, which bounds how long a picture takes. */
    static MOST_PELS = 64e6;
    /** A page is so high and so wide at most, in pels of the screen, of which browsers count some 2 to the 24. */
    static MOST_SIZE = 5e6;
    static MOST_SCALE = 8;
    static STEP = 1.25;
    static GAP = Roll.GAP;
    /** Pages stand there as far above and below what is in sight, in screens. */
    static AHEAD = 1;
    /** So many pages after the one that is looked at, and before it, are there in small. */
    static AFTER = 40;
    static BEFORE = 10;
    /** While pages are scrolled past, so many of the next ones come in small before any is drawn in large; and so many
     * milliseconds after the last step they rest. */
    static NEXT = 12;
    static REST = 150;
    /** So many of the next ones come in small before those are drawn in large that are out of sight. */
    static SOON = 3;
    /** So many pictures are asked for at a time, once there is one. */
    static AT_ONCE = 2;
    /** Pels to the inch on paper, where the file does not say it, and on the screen: as large as on paper is 100%. */
    static DOTS = 204;
    static SCREEN_DOTS = 96;

    /** @param {HTMLElement} view @param {Smalls} smalls @param {(page: number) => void} moved once the reader has gone
     * to another page @param {() => void} zoomed once the scale may be another */
    constructor(view, smalls, moved, zoomed) {
        this.view = view;
        this.smalls = smalls;
        this.moved = moved;
        this.zoomed = zoomed;
        this.all = document.createElement("div");
        this.all.className = "roll";
        view.append(this.all);
        this.roll = new Roll(view, this.all, () => this.place());
        this.queue = new Queue(View.AT_ONCE);
        /** @type {Fax | null} */
        this.fax = null;
        this.reading = 0;
        this.page = -1;
        /** @type {number | "whole" | "wide"} */
        this.zoom = "whole";
        /** The pages that stand there, and those among them that cannot be read.
         * @type {Map<number, Sheet>} */
        this.sheets = new Map();
        /** @type {Map<number, Blank>} */
        this.blanks = new Map();
        this.isDue = false;
        /** When pages were scrolled last, and what draws once they rest. */
        this.scrolled = -View.REST;
        this.timer = 0;
        this.hasMarks = true;
        /** Whether something of the fax was drawn. */
        this.hasDrawn = false;
        /** How much room pages have, across and down. */
        this.room = [50, 50];
        view.addEventListener("scroll", () => {
            const isByHand = this.roll.moved();
            this.scrolled = isByHand ? performance.now() : -View.REST;
            this.follow(isByHand);
            this.plan();
        });
        new ResizeObserver(() => this.resized()).observe(view);
        smalls.changed = (page) => this.standIn(page);
    }

    /** The page that is looked at. */
    get sheet() {
        return this.sheets.get(this.page) ?? null;
    }

    get form() {
        return this.sheet?.form ?? null;
    }

    /** @param {Fax | null} fax @param {number} page */
    show(fax, page) {
        const reading = fax?.reading ?? 0;
        const isOther = this.fax !== fax || this.reading !== reading;
        const before = this.form ?? this.blanks.get(this.page);
        const hasMoved = isOther || this.page !== page;
        Object.assign(this, { fax, reading, page });
        this.smalls.show(fax);
        if (isOther) {
            this.clear();
        }
        this.measure();
        this.stand();
        if (hasMoved || Boolean(before) !== Boolean(this.form ?? this.blanks.get(page))) {
            this.toTop();
        }
        if (this.hasDrawn) {
            this.plan();
        } else {
            this.fill();
        }
    }

    clear() {
        [...this.sheets.values(), ...this.blanks.values()].forEach((it) => it.remove());
        this.sheets.clear();
        this.blanks.clear();
        this.roll.clear();
        this.hasDrawn = false;
        // All of the first page is asked for before those in small.
        this.queue.most = Sheet.MOST_WHOLE;
    }

    /** Gives each page its place: those that are new, or all once these are forgotten. */
    measure() {
        const { fax, roll, view } = this;
        const pages = fax?.pages ?? 0;
        if (roll.pages > pages) {
            roll.clear();
        }
        if (roll.pages === 0) {
            const room = [view.clientWidth, view.clientHeight];
            this.room = room.map((it) => Math.max(50, it - 2 * View.GAP));
            roll.isCentred = !matchMedia(App.NARROW).matches;
        }
        while (fax && roll.pages < pages) {
            const form = fax.form(roll.pages);
            roll.add(form ? this.sizeOf(form, fax.turnsOf(roll.pages))[1] : Blank.HIGH);
        }
        roll.lay();
    }

    /** How wide and high a page is on the screen, as it is turned.
     * @param {Form} form @param {number} turns */
    sizeOf(form, turns) {
        const scale = this.scaleOf(form, turns);
        const [wide, high] = Sheet.sizeOf(form, scale);
        return turns % 2 ? [high, wide] : [wide, high];
    }

    /** The first page and the last one that are in sight, or so many screens above or below.
     * @param {number} screens */
    range(screens) {
        const { roll } = this;
        const more = screens * this.view.clientHeight;
        return [roll.pageAt(roll.top - more), roll.pageAt(roll.top + this.view.clientHeight + more)];
    }

    /** Has those pages stand there that are in sight or near, and the one that is looked at, and no other. */
    stand() {
        const { fax, page } = this;
        const [first, last] = this.range(View.AHEAD);
        const isNear = (/** @type {number} */ it) => it === page || (it >= first && it <= last);
        for (const standing of [this.sheets, this.blanks]) {
            for (const [number, it] of standing) {
                if (!isNear(number) || number >= this.roll.pages) {
                    it.remove();
                    standing.delete(number);
                }
            }
        }
        const near = Array.from({ length: last - first + 1 }, (_, at) => first + at);
        for (const it of fax && this.roll.pages > 0 ? new Set([...near, page]) : []) {
            if (it < this.roll.pages && !this.sheets.has(it) && !this.blanks.has(it)) {
                this.put(/** @type {Fax} */ (fax), it);
            }
        }
        [...this.sheets.values(), ...this.blanks.values()].forEach((it) => it.dress(it.page === page));
        this.place();
    }

    /** Has a page stand there, among the others.
     * @param {Fax} fax @param {number} page */
    put(fax, page) {
        const form = fax.form(page);
        const after = [...this.sheets.values(), ...this.blanks.values()].filter((it) => it.page > page)
            .reduce((/** @type {Sheet | Blank | null} */ one, it) => (one && one.page < it.page ? one : it), null);
        const made = form ? new Sheet(this, fax, page, form) : new Blank(fax, page);
        this.all.insertBefore(made.element, after?.element ?? null);
        if (made instanceof Sheet) {
            this.sheets.set(page, made);
            made.lay();
            this.standIn(page);
        } else {
            this.blanks.set(page, made);
        }
    }

    /** Puts what stands there to its place: narrow pages into the middle. */
    place() {
        const { roll } = this;
        // Read once: what was read after a write would be laid out anew for each page.
        const across = this.view.clientWidth;
        let most = 0;
        for (const it of [...this.sheets.values(), ...this.blanks.values()]) {
            const wide = it instanceof Sheet ? it.wide : it.lay(across);
            it.element.style.top = `${roll.topOf(it.page) - roll.base}px`;
            it.element.style.left = `${Math.max(View.GAP, Math.round((across - wide) / 2))}px`;
            most = Math.max(most, wide + 2 * View.GAP);
        }
        this.all.style.width = most > across ? `${most}px` : "100%";
    }

    /** Whether a page is across the middle of what is seen, or wholly in sight.
     * @param {number} page */
    isLookedAt(page) {
        const { roll, view } = this;
        const [from, to] = [roll.top, roll.top + view.clientHeight];
        const [top, middle] = [roll.topOf(page), (from + to) / 2];
        const bottom = top + roll.heightOf(page);
        return (top - View.GAP <= middle && bottom + View.GAP > middle) || (top >= from && bottom <= to);
    }

    /** Takes the page that has come into the middle for the one that is looked at, once that is not all in sight; but
     * not where nobody has scrolled: the view itself becomes less high as something is said above it.
     * @param {boolean} isByHand */
    follow(isByHand) {
        const { roll, view, page } = this;
        const other = roll.pageAt(roll.top + view.clientHeight / 2);
        const hasMoved = isByHand && this.fax !== null && roll.pages > 0 && other !== page && !this.isLookedAt(page);
        this.page = hasMoved ? other : page;
        this.stand();
        if (hasMoved) {
            this.moved(other);
        }
    }

    /** The scale of a page by the zoom, within what canvases have room for.
     * @param {Form} form @param {number} turns */
    scaleOf(form, turns) {
        const [wide, high] = Sheet.natural(form, turns);
        const { shape } = form;
        const [across, down] = this.room;
        const wanted = this.zoom === "whole" ? Math.min(across / wide, down / high)
            : this.zoom === "wide" ? across / wide : this.zoom;
        const least = Math.sqrt((across * down) / (View.MOST_PELS * shape));
        const most = Math.min(View.MOST_SCALE, View.MOST_SIZE / Math.max(wide, high));
        const inSight = Math.min(across, wide * wanted) * Math.min(down, high * wanted) / (wanted * wanted * shape);
        return Math.min(most, inSight > View.MOST_PELS ? Math.max(least, wanted) : wanted);
    }

    get scale() {
        return this.sheet?.scale ?? 1;
    }

    /** By how many quarters the page that is looked at is turned. */
    get turns() {
        return this.fax?.turnsOf(this.page) ?? 0;
    }

    /** The scale at which the page that is looked at is as large as on paper. */
    get paperScale() {
        const { form } = this;
        const inches = form ? Pdf.inches(form, form.width, form.across) : 0;
        return form && inches > 0 ? (inches * View.SCREEN_DOTS) / form.width : View.SCREEN_DOTS / View.DOTS;
    }

    /** How large the page that is looked at is, in hundredths of what it is on paper. */
    get percent() {
        return Math.round((100 * this.scale) / this.paperScale);
    }

    /** @param {number} percent */
    setPercent(percent) {
        this.setZoom(Math.max(0.01, Math.min(View.MOST_SCALE, (percent / 100) * this.paperScale)));
    }

    /** The view has another size: a page that began at its top does so still. */
    resized() {
        const isAtTop = this.roll.pages > 0 && Math.abs(this.roll.top - this.roll.topOf(this.page) + View.GAP) <= 1;
        this.lay();
        if (isAtTop) {
            this.roll.goTo(this.view.scrollLeft, this.roll.topOf(this.page) - View.GAP);
        }
    }

    /** Lays all pages out, and stays at the page that is looked at. */
    lay() {
        this.layAround(this.view.clientWidth / 2, this.view.clientHeight / 2);
        if (this.roll.pages > 0 && !this.isLookedAt(this.page)) {
            this.toTop();
        }
    }

    /** Lays all pages out, so that what is at a place of the view stays there.
     * @param {number} x @param {number} y */
    layAround(x, y) {
        const { view, roll, page } = this;
        const box = () => this.sheets.get(page)?.element.getBoundingClientRect();
        const before = box();
        const [down, high] = [roll.top + y - roll.topOf(page), roll.heightOf(page)];
        const left = view.getBoundingClientRect().left + x;
        roll.clear();
        this.measure();
        this.sheets.forEach((it) => it.lay());
        this.place();
        const after = box();
        if (before && after && before.width > 0 && high > 0) {
            const across = after.left + ((left - before.left) / before.width) * after.width - left;
            const top = roll.topOf(page) + (down / high) * roll.heightOf(page) - y;
            roll.goTo(view.scrollLeft + across, top);
        }
        this.stand();
        this.zoomed();
        this.plan();
    }

    /** Finds the tiles in sight before the next picture is painted. */
    plan() {
        if (!this.isDue) {
            this.isDue = true;
            requestAnimationFrame(() => {
                this.isDue = false;
                this.fill();
            });
        }
    }

    /** Whether something is to be drawn that nobody was asked for yet. */
    get isWaiting() {
        return this.isDue || this.timer !== 0;
    }

    /** Draws what is in sight, the page that is looked at first, and then what is next to it. While pages are scrolled
     * past they are drawn in small first. */
    fill() {
        const [first, last] = this.range(0);
        const isInSight = (/** @type {Sheet} */ { page }) => page >= first && page <= last;
        const others = [...this.sheets.values()].filter((sheet) => sheet !== this.sheet);
        if (!this.hasDrawn) {
            // The page comes first, and then those in small.
            this.sheet?.fill();
        }
        this.fillAhead();
        const isMoving = this.hasDrawn && performance.now() - this.scrolled < View.REST;
        if (isMoving && this.lacks(first, last + View.NEXT)) {
            this.timer ||= setTimeout(() => {
                this.timer = 0;
                this.fill();
            }, View.REST);
            return;
        }
        this.sheet?.fill();
        others.filter(isInSight).forEach((sheet) => sheet.fill());
        if (this.hasDrawn && !this.lacks(last + 1, last + View.SOON)) {
            others.filter((sheet) => !isInSight(sheet)).forEach((sheet) => sheet.fill());
        }
    }

    /** Whether a page is not there in small, of these.
     * @param {number} first @param {number} last */
    lacks(first, last) {
        for (let page = first; page <= last; page++) {
            if (this.fax?.form(page) && !this.smalls.kept.has(page)) {
                return true;
            }
        }
        return false;
    }

    /** Something of a page was drawn. */
    drawn() {
        this.hasDrawn = true;
        this.queue.most = View.AT_ONCE;
        this.plan();
    }

    /** A page is there in small: it stands in where it is not drawn, and the next one is drawn so.
     * @param {number} page */
    standIn(page) {
        const small = this.smalls.kept.get(page);
        if (small) {
            this.sheets.get(page)?.standIn(small);
        }
        this.plan();
    }

    /** Has more pages be drawn in small, where they are not: first those that stand there, then the next ones. */
    fillAhead() {
        const { fax, page, smalls } = this;
        if (!fax || smalls.isBusy()) {
            return;
        }
        const after = Array.from({ length: View.AFTER }, (_, at) => page + 1 + at);
        const before = Array.from({ length: View.BEFORE }, (_, at) => page - 1 - at);
        const next = [page, ...this.sheets.keys(), ...after, ...before].find((it) =>
            fax.form(it) && !smalls.kept.has(it) && !smalls.asked.has(it));
        if (next !== undefined) {
            smalls.want(next, () => true, () => {});
            this.fillAhead();
        }
    }

    /** Marks the rows that are lost, in the margin. */
    mark() {
        this.sheets.forEach((sheet) => sheet.mark());
    }

    /** Shows marks, or hides them.
     * @param {boolean} isOn */
    setMarks(isOn) {
        this.hasMarks = isOn;
        this.mark();
    }

    /** Whether white is shown black, and black white. */
    get isInverted() {
        return this.view.classList.contains("inverted");
    }

    /** @param {boolean} isOn */
    setInverted(isOn) {
        this.view.classList.toggle("inverted", isOn);
    }

    toTop() {
        this.roll.goTo(0, this.roll.topOf(this.page) - View.GAP);
    }

    /** Goes to a row; of a page that is wholly in sight, to its top.
     * @param {number} row */
    goTo(row) {
        const { sheet, roll, page, view } = this;
        if (sheet && roll.heightOf(page) + 2 * View.GAP <= view.clientHeight) {
            this.toTop();
        } else if (sheet && this.turns === 0) {
            const top = roll.topOf(page) + (row * sheet.size()[1]) / sheet.form.rows;
            roll.goTo(view.scrollLeft, Math.max(roll.topOf(page) - View.GAP, top - view.clientHeight / 3));
        }
    }

    /** @param {number | "whole" | "wide"} zoom */
    setZoom(zoom) {
        this.zoom = zoom;
        this.lay();
        if (zoom === "whole") {
            this.toTop();
        }
    }

    /** Zooms by steps; around a place of the view, if one is given.
     * @param {number} steps @param {number} [x] @param {number} [y] */
    zoomBy(steps, x, y) {
        this.zoom = Math.max(0.01, Math.min(View.MOST_SCALE, this.scale * View.STEP ** steps));
        if (x === undefined || y === undefined) {
            this.lay();
        } else {
            this.layAround(x, y);
        }
    }

    /** Turns the page that is looked at, and no other.
     * @param {number} quarters */
    turn(quarters) {
        this.fax?.turns.set(this.page, (this.turns + quarters + 4) % 4);
        this.lay();
        this.toTop();
    }
}
