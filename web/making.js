"use strict";

/** A file that is made of a fax, for whoever saves it: how far it is, and in the end its bytes, at an address of their
 * own until it is dropped. */
class Making {
    /** @param {string} name @param {() => void} changed */
    constructor(name, changed) {
        this.name = name;
        this.changed = changed;
        /** @type {"works" | "ready" | "failed"} */
        this.state = "works";
        this.percent = 0;
        /** What is said of it, in the language of the moment. */
        this.saying = () => say(TEXTS.saving.works, sayName(this.name), this.percent);
        /** @type {Blob | null} */
        this.blob = null;
        this.place = "";
    }

    /** @param {number} done @param {number} all */
    tell(done, all) {
        this.percent = Math.floor((100 * done) / all);
        this.changed();
    }

    get said() {
        return this.saying();
    }

    /** @param {Blob} blob @param {() => string} saying */
    end(blob, saying) {
        this.state = "ready";
        this.blob = blob;
        this.saying = saying;
        this.place = URL.createObjectURL(blob);
        this.changed();
    }

    /** @param {() => string} saying */
    fail(saying) {
        this.state = "failed";
        this.saying = saying;
        this.changed();
    }

    /** Gives back what it has. */
    drop() {
        if (this.place) {
            URL.revokeObjectURL(this.place);
        }
        this.place = "";
        this.blob = null;
    }
}

/** Has files be made of faxes, one at a time, and shows the one of the fax that is looked at. */
class Makings {
    /**
     * @param {{ said: HTMLElement, submit: HTMLButtonElement, cancel: HTMLElement, progress: HTMLProgressElement }}
     *     parts
     * @param {() => void} changed @param {(text: string) => void} announce
     */
    constructor(parts, changed, announce) {
        this.parts = parts;
        this.changed = changed;
        this.announce = announce;
        /** The fax of which a file is made now.
         * @type {Fax | null} */
        this.working = null;
        /** What is shown. */
        this.shown = "";
        parts.cancel.addEventListener("click", () => this.cancel());
    }

    /** Makes a file of a fax, and offers it once it was read again and compared.
     * @param {Fax} fax @param {string} kind @param {number} page that is looked at
     * @param {number[] | null} chosen pages; all, if none are */
    async make(fax, kind, page, chosen) {
        if (this.working) {
            return;
        }
        const there = kind === "png" ? [page] : kind === "pbm" ? fax.wholePages() : fax.shownPages();
        const pages = chosen && kind !== "png" ? there.filter((it) => chosen.includes(it)) : there;
        const making = new Making(Makings.nameOf(fax, kind, page, chosen), this.changed);
        fax.setMaking(making);
        if (kind !== "text" && (pages.length === 0 || !fax.form(pages[0]))) {
            making.fail(() => TEXTS.saving.nothing);
            return;
        }
        this.working = fax;
        this.changed();
        try {
            const turns = pages.map((it) => fax.turnsOf(it));
            const words = { kind: kind.replace(/\d/, ""), coding: Number(kind.slice(-1)) || 0, pages, turns };
            const tell = (/** @type {number} */ done, /** @type {number} */ all) => making.tell(done, all);
            const blob = kind === "text" ? await fax.textBlob() : await fax.ask("save", words, tell);
            // What is made of an earlier reading, or of a file that was closed, is nobody's.
            if (fax.making === making) {
                making.end(blob, () => Makings.saidOf(fax, kind, sayName(making.name), pages, chosen));
                Makings.link(making, "").click();
            }
        } catch (error) {
            const isStopped = error instanceof Stopped || error instanceof Closed;
            making.fail(() => isStopped ? say(TEXTS.saving.cancelled, sayName(making.name))
                : say(TEXTS.saving.failed, sayName(making.name), sayError(error)));
        } finally {
            this.working = null;
            this.changed();
        }
    }

    /** @param {Fax} fax @param {string} kind @param {string} name @param {number[]} pages
     * @param {number[] | null} chosen */
    static saidOf(fax, kind, name, pages, chosen) {
        const wanted = chosen?.length ?? fax.pages;
        const isLess = !["png", "text"].includes(kind) && pages.length < wanted;
        if (isLess && kind === "pbm") {
            return say(TEXTS.saving.less, name, pages.length, sayCount(wanted, "page"));
        }
        const isLossy = !["pbm", "text"].includes(kind) && pages.some((page) => fax.lost.has(page));
        const { report, grey, white, ready, fewer } = TEXTS.saving;
        const said = say(kind === "text" ? report : !isLossy ? ready : /^tiff/.test(kind) ? white : grey, name);
        return isLess ? `${said} ${say(fewer, pages.length, sayCount(wanted, "page"))}` : said;
    }

    /** @param {Fax} fax @param {string} kind @param {number} page @param {number[] | null} chosen */
    static nameOf(fax, kind, page, chosen) {
        const base = fax.file.name.replace(/\.[^.]*$/, "") || "fax";
        const part = chosen && !["png", "text"].includes(kind) ? say(TEXTS.saving.pages, Choosing.text(chosen)) : "";
        const endings = /** @type {Record<string, string>} */ ({ text: "-report.txt", png: `-page-${sayPage(page)}.png`,
            tiff1: "-mh.tif", tiff2: "-mr.tif", tiff3: "-mmr.tif" });
        return base + part + (endings[kind] ?? `.${kind}`);
    }

    /** What saves a file that was made.
     * @param {Making} making @param {string} text */
    static link(making, text) {
        const link = document.createElement("a");
        link.className = "button";
        link.href = making.place;
        link.download = making.name;
        link.textContent = text;
        return link;
    }

    /** Ends what makes a file. The worker is started again where something else is asked of it. */
    cancel() {
        this.working?.life.end();
    }

    /** Has what is made be shown anew, in other words. */
    forget() {
        this.shown = "";
    }

    /** Shows what is made of a fax.
     * @param {Fax | null} fax */
    show(fax) {
        const { said, submit, cancel, progress } = this.parts;
        const making = fax?.making ?? null;
        submit.disabled = this.working !== null;
        cancel.hidden = progress.hidden = making?.state !== "works";
        progress.value = making?.percent ?? 0;
        const key = [fax?.number, fax?.reading, making?.state, making?.said, making?.place].join("\n");
        if (key !== this.shown) {
            this.shown = key;
            said.replaceChildren(making?.said ?? "");
            if (making && making.state !== "works") {
                this.announce(making.said);
            }
            if (making?.place) {
                said.append(" ", Makings.link(making, say(TEXTS.saving.link, sayName(making.name))));
            }
        }
    }
}
