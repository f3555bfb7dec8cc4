"use strict";

/** What hands do with the pages: dragging by the mouse, zooming by the wheel or by two fingers, scrolling by keys. */
class Hands {
    /** So many pels of a wheel are a step of the zoom. */
    static WHEEL = 100;
    /** So much of the view a key scrolls: a little, and nearly all. */
    static LINE = 0.1;
    static SCREEN = 0.9;

    /** A finger that goes so far across, and less down, in so many milliseconds, turns the page. */
    static SWIPE = 60;
    static SOON = 700;

    /** @param {View} pages @param {(pages: number) => void} turn */
    constructor(pages, turn) {
        this.pages = pages;
        this.turn = turn;
        /** Where one finger began, and when.
         * @type {{ x: number, y: number, at: number, left: number } | null} */
        this.begun = null;
        const { view } = pages;
        /** Where fingers, or the mouse, are.
         * @type {Map<number, { x: number, y: number }>} */
        this.held = new Map();
        view.addEventListener("wheel", (event) => this.wheel(event), { passive: false });
        view.addEventListener("pointerdown", (event) => this.hold(event));
        view.addEventListener("pointermove", (event) => this.move(event));
        view.addEventListener("touchstart", (event) => this.touch(event), { passive: true });
        view.addEventListener("touchend", (event) => this.swipe(event), { passive: true });
        for (const name of /** @type {("pointerup" | "pointercancel")[]} */ (["pointerup", "pointercancel"])) {
            view.addEventListener(name, (event) => this.let(event));
        }
    }

    /** The wheel scrolls by itself; with Ctrl, and by two fingers on what some laptops have, it zooms at its place.
     * @param {WheelEvent} event */
    wheel(event) {
        if (event.ctrlKey) {
            event.preventDefault();
            const step = event.deltaMode === WheelEvent.DOM_DELTA_PIXEL ? Hands.WHEEL : 3;
            this.zoom(-event.deltaY / step, event.clientX, event.clientY);
        }
    }

    /** @param {number} steps @param {number} x @param {number} y of the window */
    zoom(steps, x, y) {
        const box = this.pages.view.getBoundingClientRect();
        this.pages.zoomBy(steps, x - box.left, y - box.top);
    }

    /** Fingers scroll by themselves; the mouse takes hold of the page, but not of what scrolls it.
     * @param {PointerEvent} event */
    hold(event) {
        const { view } = this.pages;
        const box = view.getBoundingClientRect();
        const isOnPage = event.clientX - box.left < view.clientWidth && event.clientY - box.top < view.clientHeight;
        if (event.button === 0 && isOnPage) {
            this.held.set(event.pointerId, { x: event.clientX, y: event.clientY });
        }
        if (event.pointerType === "mouse" && this.held.size > 0) {
            view.setPointerCapture(event.pointerId);
            view.classList.add("held");
        }
    }

    /** @param {PointerEvent} event */
    move(event) {
        const before = this.held.get(event.pointerId);
        const now = { x: event.clientX, y: event.clientY };
        if (!before) {
            return;
        }
        if (event.pointerType === "mouse") {
            this.pages.view.scrollBy(before.x - now.x, before.y - now.y);
        }
        const other = [...this.held].find(([id]) => id !== event.pointerId)?.[1];
        this.held.set(event.pointerId, now);
        if (other) {
            const far = (/** @type {{ x: number, y: number }} */ it) => Math.hypot(it.x - other.x, it.y - other.y);
            const steps = Math.log(Math.max(1, far(now)) / Math.max(1, far(before))) / Math.log(View.STEP);
            this.zoom(steps, (now.x + other.x) / 2, (now.y + other.y) / 2);
        }
    }

    /** @param {PointerEvent} event */
    let(event) {
        this.held.delete(event.pointerId);
        this.pages.view.classList.remove("held");
    }

    /** @param {TouchEvent} event */
    touch({ touches, timeStamp }) {
        const [one] = touches;
        this.begun = touches.length === 1
            ? { x: one.clientX, y: one.clientY, at: timeStamp, left: this.pages.view.scrollLeft } : null;
    }

    /** A swipe to the left goes to the next page, one to the right to the page before, where it scrolls nothing.
     * @param {TouchEvent} event */
    swipe({ changedTouches, timeStamp }) {
        const { begun } = this;
        const [one] = changedTouches;
        this.begun = null;
        if (!begun || !one || timeStamp - begun.at > Hands.SOON || this.pages.view.scrollLeft !== begun.left) {
            return;
        }
        const [across, down] = [one.clientX - begun.x, one.clientY - begun.y];
        if (Math.abs(across) >= Hands.SWIPE && Math.abs(across) > 2 * Math.abs(down)) {
            this.turn(across < 0 ? 1 : -1);
        }
    }

    /** Whether the page is no wider than what is seen of it. */
    isNarrow() {
        const { view } = this.pages;
        return view.scrollWidth <= view.clientWidth;
    }

    /** The keys that go to the next page, and to the one before, where nothing is to be scrolled.
     * @param {string} key @param {boolean} isBack */
    turned(key, isBack) {
        const across = { ArrowRight: 1, ArrowLeft: -1 }[key] ?? 0;
        const down = { PageDown: 1, PageUp: -1, " ": isBack ? -1 : 1 }[key] ?? 0;
        return across && this.isNarrow() ? across : this.pages.zoom === "whole" ? down : 0;
    }

    /** What keys scroll, and where to: across, and down.
     * @type {Record<string, [number, number]>} */
    static KEYS = {
        ArrowDown: [0, Hands.LINE], ArrowUp: [0, -Hands.LINE], ArrowRight: [Hands.LINE, 0], ArrowLeft: [-Hands.LINE, 0],
        PageDown: [0, Hands.SCREEN], PageUp: [0, -Hands.SCREEN], " ": [0, Hands.SCREEN],
    };

    /** Scrolls by a key, or turns the page, if it is one that does.
     * @param {string} key @param {boolean} isBack */
    key(key, isBack) {
        const { view } = this.pages;
        const pages = this.turned(key, isBack);
        if (pages) {
            this.turn(pages);
            return true;
        }
        const [across, down] = Hands.KEYS[key] ?? [0, 0];
        const times = isBack && key === " " ? -1 : 1;
        view.scrollBy(across * view.clientWidth, times * down * view.clientHeight);
        return across !== 0 || down !== 0;
    }
}
