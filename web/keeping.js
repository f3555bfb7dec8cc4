"use strict";

/**
 * Keeps the files that are open over a reload of the page: their bytes, in the browser's own storage (IndexedDB), under
 * a name of the tab. What is closed is deleted there, and so is all of a tab that is gone, once the page is opened
 * again.
 *
 * @typedef {{ tab: string, number: number, file: File, time: number }} Kept
 */
class Keeping {
    /** So many bytes are kept at most. */
    static MOST = 64 << 20;
    static DATABASE = "faxpages";
    static STORE = "files";
    /** So many milliseconds after a file was opened it is kept. */
    static LATER = 1000;
    /** Names in the storage of the tab, and in that of the page. */
    static TAB = "faxpages-tab";
    static PLACE = "faxpages-place";
    static SWITCH = "faxpages-keep";
    /** Where nobody can say which tabs live, what is older is deleted. */
    static OLD = 86400000;

    /** @param {HTMLInputElement} tick */
    constructor(tick) {
        this.tick = tick;
        this.tab = "";
        this.size = 0;
        /** The files that are kept next.
         * @type {Map<number, File>} */
        this.wanted = new Map();
        this.timer = 0;
        /** @type {IDBDatabase | null} */
        this.database = null;
        /** What is kept, by the numbers of the files.
         * @type {Map<number, number>} */
        this.sizes = new Map();
        /** All that was asked of the storage, one after another.
         * @type {Promise<any>} */
        this.last = Promise.resolve();
        try {
            this.isReload = sessionStorage.getItem(Keeping.TAB) !== null;
            this.tab = sessionStorage.getItem(Keeping.TAB) ?? crypto.randomUUID();
            sessionStorage.setItem(Keeping.TAB, this.tab);
            tick.checked = localStorage.getItem(Keeping.SWITCH) !== "off";
            navigator.locks?.request(`faxpages ${this.tab}`, () => new Promise(() => {})).catch(() => {});
        } catch {
            // A browser that gives no storage keeps nothing.
            this.fail();
        }
    }

    /** Says that nothing is kept here. */
    fail() {
        this.tick.checked = false;
        this.tick.disabled = true;
        this.tab = "";
    }

    get isOn() {
        return this.tab !== "" && this.tick.checked;
    }

    /** Does something in the storage, after all else that was asked for.
     * @param {(store: IDBObjectStore) => IDBRequest | null} does @returns {Promise<any>} */
    ask(does) {
        const asked = this.last.then(async () => {
            this.database ??= await Keeping.opened();
            const change = this.database.transaction(Keeping.STORE, "readwrite", { durability: "relaxed" });
            const request = does(change.objectStore(Keeping.STORE));
            return new Promise((resolve, reject) => {
                change.oncomplete = () => resolve(request?.result);
                change.onabort = change.onerror = () => reject(change.error);
            });
        });
        this.last = asked.catch(() => {});
        return asked;
    }

    /** @returns {Promise<IDBDatabase>} */
    static opened() {
        return new Promise((resolve, reject) => {
            const opening = indexedDB.open(Keeping.DATABASE, 1);
            opening.onupgradeneeded = () => opening.result.createObjectStore(Keeping.STORE);
            opening.onsuccess = () => resolve(opening.result);
            opening.onerror = () => reject(opening.error);
        });
    }

    /** Keeps a file a little later, when others were read.
     * @param {Fax} fax */
    keep({ number, file }) {
        if (this.isOn) {
            this.wanted.set(number, file);
            this.timer ||= setTimeout(() => this.keepWanted(), Keeping.LATER);
        }
    }

    /** Keeps the files that are wanted, one after another, as far as there is room. One that is gone from the disk
     * meanwhile is not kept. */
    async keepWanted() {
        for (const [number, file] of this.wanted) {
            const size = this.size - (this.sizes.get(number) ?? 0) + file.size;
            this.wanted.delete(number);
            if (size <= Keeping.MOST) {
                this.size = size;
                this.sizes.set(number, file.size);
                const kept = { tab: this.tab, number, file, time: Date.now() };
                await this.ask((store) => (this.sizes.has(number) ? store.put(kept, `${this.tab} ${number}`) : null))
                    .catch(() => this.forget(number));
            }
        }
        this.timer = 0;
    }

    /** Deletes what is kept of a file.
     * @param {number} number */
    async forget(number) {
        this.wanted.delete(number);
        const size = this.sizes.get(number);
        if (size !== undefined) {
            this.size -= size;
            this.sizes.delete(number);
            await this.ask((store) => store.delete(`${this.tab} ${number}`)).catch(() => {});
        }
    }

    /** Whether a file is kept.
     * @param {Fax} fax */
    has({ number }) {
        return this.sizes.has(number);
    }

    /** Begins to keep what is open, or deletes it.
     * @param {Fax[]} faxes that are open */
    async change(faxes) {
        localStorage.setItem(Keeping.SWITCH, this.tick.checked ? "on" : "off");
        for (const fax of faxes) {
            await (this.tick.checked ? this.keep(fax) : this.forget(fax.number));
        }
    }

    /** The files that were open before the page was loaded again, in their order. Those of tabs that are gone are
     * deleted.
     * @returns {Promise<File[]>} */
    async restored() {
        if (!this.tab) {
            return [];
        }
        try {
            const known = await indexedDB.databases();
            if (!known.some(({ name }) => name === Keeping.DATABASE)) {
                return [];
            }
            /** @type {Kept[]} */
            const all = await this.ask((store) => store.getAll());
            const live = await Keeping.live();
            const mine = all.filter(({ tab }) => tab === this.tab).sort((one, other) => one.number - other.number);
            const gone = all.filter(({ tab, time }) => tab === this.tab || (live ? !live.has(`faxpages ${tab}`)
                : Date.now() - time > Keeping.OLD));
            for (const { tab, number } of gone) {
                await this.ask((store) => store.delete(`${tab} ${number}`));
            }
            return this.isOn ? mine.map(({ file }) => file) : [];
        } catch {
            this.fail();
            return [];
        }
    }

    /** The tabs that live, by the names of their locks, if the browser can tell.
     * @returns {Promise<Set<string | undefined> | null>} */
    static async live() {
        const held = await navigator.locks?.query().catch(() => null);
        return held ? new Set(held.held?.map(({ name }) => name)) : null;
    }

    /** Notes which file is shown, and at which page each is.
     * @param {{ shown: number, pages: number[] }} place */
    note(place) {
        if (this.tab) {
            sessionStorage.setItem(Keeping.PLACE, JSON.stringify(place));
        }
    }

    /** What was noted.
     * @returns {{ shown: number, pages: number[] }} */
    noted() {
        const { shown, pages } = JSON.parse(sessionStorage.getItem(Keeping.PLACE) ?? "{}");
        return { shown: Number(shown) || 0, pages: Array.isArray(pages) ? pages.map(Number) : [] };
    }
}
