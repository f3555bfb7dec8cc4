"use strict";

/**
 * Where the pages of a fax stand: below each other, whether they are drawn or not, so that one bar scrolls over all of
 * them. Places are pels of the screen from the beginning of the first page on.
 *
 * A browser bounds how high an element is. Where all pages together are higher, the bar is shorter than they are: small
 * steps scroll as far as ever, and what is far is found by its part of the whole.
 */
class Roll {
    /** Around each page. */
    static GAP = 8;
    /** So high is what the bar scrolls at most. */
    static MOST = 1e7;
    /** A step of more screens than this is one to another part of the fax. */
    static FAR = 3;
    /** So many milliseconds after the last step the bar stands right again. */
    static REST = 200;

    /** @param {HTMLElement} view @param {HTMLElement} all that the bar scrolls @param {() => void} placed */
    constructor(view, all, placed) {
        this.view = view;
        this.all = all;
        this.placed = placed;
        /** Where each page begins, and last where one more would. */
        this.tops = [Roll.GAP];
        /** What of the beginning is above what the bar scrolls, and where the bar was. */
        this.base = 0;
        this.before = 0;
        /** Where the bar was put, until somebody moves it. */
        this.put = NaN;
        this.timer = 0;
        /** Pages that together are less high than the view stand in its middle, so far from its top. */
        this.isCentred = true;
        this.shift = 0;
    }

    get pages() {
        return this.tops.length - 1;
    }

    /** How high all pages are. */
    get total() {
        return this.tops[this.pages];
    }

    /** Whether all pages are higher than an element may be. */
    get isShort() {
        return this.total > Roll.MOST;
    }

    clear() {
        this.tops = [Roll.GAP];
    }

    /** One more page.
     * @param {number} height */
    add(height) {
        this.tops.push(this.total + height + Roll.GAP);
    }

    /** @param {number} page */
    topOf(page) {
        return (this.tops[page] ?? 0) + this.shift;
    }

    /** @param {number} page */
    heightOf(page) {
        return page < this.pages ? this.tops[page + 1] - this.tops[page] - Roll.GAP : 0;
    }

    /** The page at a place, with half of the gaps around it; the first, or the last, where there is none.
     * @param {number} place */
    pageAt(place) {
        let [from, to] = [0, Math.max(0, this.pages - 1)];
        const wanted = place - this.topOf(0) + this.tops[0] + Roll.GAP / 2;
        while (from < to) {
            const middle = (from + to + 1) >> 1;
            [from, to] = this.tops[middle] <= wanted ? [middle, to] : [from, middle - 1];
        }
        return from;
    }

    /** Where what is seen begins. */
    get top() {
        return this.view.scrollTop + this.base;
    }

    /** How far can be scrolled: over all pages, and by the bar. */
    get most() {
        return [this.total, Math.min(this.total, Roll.MOST)].map((high) => Math.max(0, high - this.view.clientHeight));
    }

    /** Makes what the bar scrolls as high as the pages are. */
    lay() {
        const high = this.view.clientHeight;
        this.shift = this.isCentred ? Math.max(0, Math.floor((high - this.total) / 2)) : 0;
        this.all.style.height = `${Math.max(Math.min(this.total, Roll.MOST), high)}px`;
    }

    /** Goes to a place.
     * @param {number} left @param {number} top */
    goTo(left, top) {
        const [most, bar] = this.most;
        const wanted = Math.max(0, Math.min(most, top));
        const place = this.isShort ? Math.round((wanted / most) * bar) : wanted;
        this.base = this.isShort ? Math.round(wanted) - place : 0;
        this.before = this.put = place;
        this.view.scrollTo(left, place);
        this.placed();
    }

    /** The bar was moved, or the pages were: whether somebody did so, and it does not stand where it was put. */
    moved() {
        const isByHand = !(Math.abs(this.view.scrollTop - this.put) <= 1);
        this.put = isByHand ? NaN : this.put;
        if (this.isShort) {
            this.step();
        } else {
            this.base = 0;
        }
        return isByHand;
    }

    /** A step of a bar that is shorter than the pages. */
    step() {
        const { scrollTop, clientHeight, scrollLeft } = this.view;
        const [most, bar] = this.most;
        const step = Math.abs(scrollTop - this.before);
        this.before = scrollTop;
        if (step > Roll.FAR * clientHeight) {
            this.base = Math.round((scrollTop / bar) * most - scrollTop);
            this.placed();
        } else if (step > 0 && (scrollTop <= 0 || scrollTop >= bar)) {
            this.goTo(scrollLeft, this.top);
        } else if (step > 0) {
            clearTimeout(this.timer);
            this.timer = setTimeout(() => this.goTo(this.view.scrollLeft, this.top), Roll.REST);
        }
    }
}
