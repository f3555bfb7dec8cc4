"use strict";

/** A page on the screen, in tiles: only those that are in sight have a canvas. */
class Sheet {
    static ACROSS = 2048;
    static DOWN = 1024;
    /** A page of so many tiles is drawn wholly, also where some of it is out of sight. */
    static MOST_WHOLE = 6;
    /** Of a larger one so much more is drawn above and below, of what is seen. */
    static NEARLY = 0.25;
    /** Bars are so high at least, in pels of the screen, and so many; those that are so near to each other are one. */
    static LEAST_BAR = 2;
    static MOST_BARS = 1000;
    static NEAR = 1;

    /** @param {View} view @param {Fax} fax @param {number} page @param {Form} form */
    constructor(view, fax, page, form) {
        this.view = view;
        this.fax = fax;
        this.reading = fax.reading;
        this.page = page;
        this.form = form;
        this.scale = 1;
        /** @type {Map<string, HTMLCanvasElement>} */
        this.tiles = new Map();
        this.element = document.createElement("div");
        this.paper = document.createElement("div");
        this.paper.className = "paper";
        /** The page in small, below its tiles: it is seen until these are drawn.
         * @type {HTMLCanvasElement | null} */
        this.small = null;
        this.element.setAttribute("role", "img");
        this.element.append(this.paper);
    }

    /** Shows the page in small where it is not drawn yet.
     * @param {{ pels: Uint32Array, width: number, height: number }} small */
    standIn({ pels, width, height }) {
        this.small ??= document.createElement("canvas");
        this.small.className = "small";
        putPels(this.small, pels.slice(), width, height);
        this.paper.prepend(this.small);
    }

    /** Whether it is the page that is looked at; others stand above and below it.
     * @param {boolean} isCurrent */
    dress(isCurrent) {
        this.element.className = isCurrent ? "sheet current" : "sheet";
        this.element.setAttribute("aria-hidden", String(!isCurrent));
        this.element.setAttribute("aria-label", say(TEXTS.pages.picture, sayPage(this.page),
            this.fax.sayState(this.page)));
    }

    /** Gives back the memory of its canvases at once, however many pages are scrolled past. */
    remove() {
        this.drop(() => true);
        this.element.remove();
    }

    /** By how many quarters the page is turned. */
    get turns() {
        return this.fax.turnsOf(this.page);
    }

    /** The size of a page as it lies, at a scale of 1.
     * @param {Form} form @param {number} turns */
    static natural(form, turns) {
        const [wide, high] = [form.width, form.rows * form.shape];
        return turns % 2 ? [high, wide] : [wide, high];
    }

    /** The size of a page on the screen before it is turned.
     * @param {Form} form @param {number} scale */
    static sizeOf(form, scale) {
        return [Math.round(form.width * scale), Math.round(form.rows * scale * form.shape)];
    }

    size() {
        return Sheet.sizeOf(this.form, this.scale);
    }

    /** How wide it is as it is turned. */
    get wide() {
        return this.size()[this.turns % 2];
    }

    /** Lays the page out at its scale, as it is turned. */
    lay() {
        const { turns } = this;
        this.scale = this.view.scaleOf(this.form, turns);
        const [wide, high] = this.size();
        const isAcross = turns % 2 === 1;
        this.element.style.width = `${isAcross ? high : wide}px`;
        this.element.style.height = `${isAcross ? wide : high}px`;
        this.paper.style.width = `${wide}px`;
        this.paper.style.height = `${high}px`;
        this.paper.style.transform = ["none", `translate(${high}px, 0) rotate(90deg)`,
            `translate(${wide}px, ${high}px) rotate(180deg)`, `translate(0, ${wide}px) rotate(270deg)`][turns];
        this.paper.classList.toggle("sharp", this.scale * devicePixelRatio >= 1);
        for (const [key, canvas] of this.tiles) {
            this.place(canvas, key);
        }
        this.mark();
    }

    /** @param {HTMLCanvasElement} canvas @param {string} key */
    place(canvas, key) {
        const { form } = this;
        const [wide, high] = this.size();
        const [x, y] = key.split(" ").map(Number);
        const [left, right] = [x * Sheet.ACROSS, Math.min(form.width, (x + 1) * Sheet.ACROSS)]
            .map((pel) => Math.round((pel * wide) / form.width));
        const [top, bottom] = [y * Sheet.DOWN, Math.min(form.rows, (y + 1) * Sheet.DOWN)]
            .map((row) => Math.round((row * high) / form.rows));
        Object.assign(canvas.style, { left: `${left}px`, top: `${top}px`, width: `${Math.max(1, right - left)}px`,
            height: `${Math.max(1, bottom - top)}px` });
    }

    /** What of the page is in sight, or nearly, in pels and rows: from and to; nothing where it is far.
     * @returns {number[] | null} */
    inSight() {
        const { form } = this;
        const [box, sheet] = [this.view.view.getBoundingClientRect(), this.element.getBoundingClientRect()];
        const more = Sheet.NEARLY * box.height;
        if (sheet.bottom < box.top - more || sheet.top > box.bottom + more) {
            return null;
        }
        const [wide, high] = this.size();
        const [left, top] = [box.left - sheet.left, box.top - more - sheet.top];
        const [right, bottom] = [left + box.width, top + box.height + 2 * more];
        const [x, y, toX, toY] = [
            [left, top, right, bottom], [top, high - right, bottom, high - left],
            [wide - right, high - bottom, wide - left, high - top], [wide - bottom, left, wide - top, right],
        ][this.turns];
        const pels = (/** @type {number} */ at) => Math.max(0, Math.min(form.width - 1, (at * form.width) / wide));
        const rows = (/** @type {number} */ at) => Math.max(0, Math.min(form.rows - 1, (at * form.rows) / high));
        return [pels(x), rows(y), pels(toX), rows(toY)];
    }

    /** How many pels across and rows down a pel of the screen has. */
    shrinking() {
        const scale = this.scale * devicePixelRatio;
        return [scale, scale * this.form.shape].map((it) => Math.max(1, Math.floor(1 / it)));
    }

    /** What is drawn, in pels and rows: all of a page that is not large, so that it is there before it is scrolled to,
     * and to be printed; of a large one what is in sight. */
    drawn() {
        const { width, rows } = this.form;
        const isSmall = Math.ceil(width / Sheet.ACROSS) * Math.ceil(rows / Sheet.DOWN) <= Sheet.MOST_WHOLE;
        return isSmall ? [0, 0, width - 1, rows - 1] : this.inSight() ?? [0, 0, -1, -1];
    }

    /** Gives the tiles that are drawn their canvases, and takes away the others. */
    fill() {
        const [x, y, toX, toY] = this.drawn();
        const shrunk = this.shrinking().join(" ");
        const wanted = new Set();
        for (let down = Math.floor(y / Sheet.DOWN); down <= Math.floor(toY / Sheet.DOWN); down++) {
            for (let across = Math.floor(x / Sheet.ACROSS); across <= Math.floor(toX / Sheet.ACROSS); across++) {
                wanted.add(`${across} ${down} `);
            }
        }
        this.drop((key) => !wanted.has(Sheet.placeOf(key)));
        for (const place of wanted) {
            if (!this.tiles.has(place + shrunk)) {
                this.add(place + shrunk);
            }
        }
    }

    /** Of a tile's key, where it is.
     * @param {string} key */
    static placeOf(key) {
        return key.replace(/\d+ \d+$/, "");
    }

    /** Takes tiles away.
     * @param {(key: string) => boolean} isDropped */
    drop(isDropped) {
        for (const [key, canvas] of this.tiles) {
            if (isDropped(key)) {
                canvas.remove();
                canvas.width = canvas.height = 0;
                this.tiles.delete(key);
            }
        }
    }

    /** @param {string} key */
    add(key) {
        const { page, reading, form, fax } = this;
        const canvas = document.createElement("canvas");
        const [column, line, across, down] = key.split(" ").map(Number);
        const [x, y] = [column * Sheet.ACROSS, line * Sheet.DOWN];
        const [width, height] = [Math.min(Sheet.ACROSS, form.width - x), Math.min(Sheet.DOWN, form.rows - y)];
        canvas.width = canvas.height = 1;
        this.tiles.set(key, canvas);
        this.place(canvas, key);
        this.paper.append(canvas);
        const isWanted = () => this.view.sheets.get(page) === this && this.tiles.get(key) === canvas &&
            fax.reading === reading;
        this.view.queue.add(isWanted, async () => {
            const { pels } = await fax.ask("part", { page, x, y, width, height, across, down });
            if (isWanted()) {
                putPels(canvas, pels, Math.ceil(width / across), Math.ceil(height / down));
                canvas.dataset.drawn = key;
                this.drop((other) => other !== key && Sheet.placeOf(other) === Sheet.placeOf(key));
                this.view.drawn();
            }
        });
    }

    /** The page as it is drawn now, in one canvas. */
    picture() {
        const { form } = this;
        const picture = document.createElement("canvas");
        const drawn = [...this.tiles].filter(([, tile]) => tile.dataset.drawn);
        const [across, down] = (drawn[0]?.[0] ?? "0 0 1 1").split(" ").slice(2).map(Number);
        picture.width = Math.ceil(form.width / across);
        picture.height = Math.ceil(form.rows / down);
        for (const [key, tile] of drawn) {
            const [column, line] = key.split(" ").map(Number);
            picture.getContext("2d")?.drawImage(tile, Math.floor((column * Sheet.ACROSS) / across),
                Math.floor((line * Sheet.DOWN) / down));
        }
        return picture;
    }

    /** Marks the rows that are lost: bars beside the paper, as high as these are, so that they hide nothing. The place
     * that was gone to last stands out. */
    mark() {
        const bars = this.view.hasMarks ? this.bars() : [];
        const { last } = this.fax;
        this.paper.querySelectorAll(".mark").forEach((mark) => mark.remove());
        this.paper.append(...bars.map(({ top, bottom, from, to, lost }) => {
            const mark = document.createElement("div");
            const isLast = last && last.page === this.page && from <= last.row && last.row <= to;
            mark.className = isLast ? "mark last" : "mark";
            mark.style.top = `${top}px`;
            mark.style.height = `${Math.max(Sheet.LEAST_BAR, bottom - top)}px`;
            mark.title = lost === 1 ? say(TEXTS.findings.row, from + 1)
                : lost === to - from + 1 ? say(TEXTS.findings.rows, from + 1, to + 1)
                : say(TEXTS.findings.between, lost, from + 1, to + 1);
            return mark;
        }));
    }

    /** The bars of rows that are lost, where they stand on the screen. */
    bars() {
        const high = this.size()[1];
        const scale = high / this.form.rows;
        const numbers = this.fax.lost.get(this.page)?.numbers ?? new Uint32Array(0);
        for (let near = Sheet.NEAR; ; near *= 2) {
            /** @type {{ top: number, bottom: number, from: number, to: number, lost: number }[]} */
            const bars = [];
            for (let at = 0; at < numbers.length; at += 3) {
                const [from, to] = [numbers[at], numbers[at] + numbers[at + 1] - 1];
                const last = bars[bars.length - 1];
                const [top, bottom] = [from * scale, (to + 1) * scale];
                if (last && top - Math.max(last.bottom, last.top + Sheet.LEAST_BAR) < near) {
                    Object.assign(last, { bottom, to, lost: last.lost + to - from + 1 });
                } else {
                    bars.push({ top, bottom, from, to, lost: to - from + 1 });
                }
            }
            if (bars.length <= Sheet.MOST_BARS) {
                return bars;
            }
        }
    }
}
