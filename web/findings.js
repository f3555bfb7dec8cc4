"use strict";

/** Lists what is wrong with a fax, folded by page, and apart from that what is noted of it. */
class Findings {
    /** So many places are listed. */
    static MOST = 200;

    /** @param {(page: number, row: number) => void} goTo */
    constructor(goTo) {
        /** What is listed: which reading of which fax, how far. */
        this.shown = "";
        /** Pages whose places are unfolded, of the fax that is listed. */
        this.fax = 0;
        /** @type {Set<string>} */
        this.open = new Set();
        for (const id of ["findings", "notes-list"]) {
            the(id).addEventListener("click", (/** @type {Event} */ event) => {
                const button = /** @type {HTMLElement} */ (event.target).closest("button");
                if (button) {
                    goTo(Number(button.dataset.page), Number(button.dataset.row));
                }
            });
        }
    }

    /** Has it be listed anew, in other words. */
    forget() {
        this.shown = "";
    }

    /** Lists what is known of a fax; whether that is more than was listed.
     * @param {Fax} fax */
    show(fax) {
        const count = Math.min(fax.refused.size + fax.lost.size, fax.isBusy() ? Findings.MOST : Infinity);
        const key = [fax.number, fax.reading, count, fax.notes.size, fax.cut.size, fax.state, Boolean(fax.end)].join();
        if (key === this.shown) {
            return false;
        }
        this.shown = key;
        if (this.fax !== fax.number) {
            this.fax = fax.number;
            this.open.clear();
        }
        const { found, all } = fax.findings(Findings.MOST);
        the("findings-part").hidden = found.length === 0;
        the("findings").replaceChildren(...Findings.byPage(found).map((group) => this.group(fax, group)));
        the("findings-more").textContent = all > found.length ? say(TEXTS.findings.more, all - found.length) : "";
        the("advice").textContent = Findings.advice(found).join(" ");
        this.showNotes(fax);
        return true;
    }

    /** @param {Fax} fax */
    showNotes(fax) {
        const { found, all } = fax.findings(Findings.MOST, "note");
        the("notes-part").hidden = found.length === 0 && !fax.isLong;
        the("notes-list").replaceChildren(...found.map((finding) => {
            const item = document.createElement("li");
            const [means, does] = finding.isCut ? TEXTS.cut : sayOfNote(finding.name);
            const head = say(TEXTS.findings.directory, sayPage(finding.page));
            item.append(Findings.button(finding, [head, finding.head].filter(Boolean).join(", ")),
                Findings.text(finding.name, `${means} ${does}`.trim()));
            return item;
        }));
        the("notes-more").textContent = [all > found.length ? say(TEXTS.findings.more, all - found.length) : "",
            fax.isLong ? TEXTS.findings.unchecked : ""].join(" ").trim();
    }

    /** What is found, a list for each page.
     * @param {Finding[]} found */
    static byPage(found) {
        /** @type {Map<string, Finding[]>} */
        const pages = new Map();
        for (const finding of found) {
            const key = finding.isEnd ? TEXTS.findings.end : say(TEXTS.findings.directory, sayPage(finding.page));
            pages.set(key, [...pages.get(key) ?? [], finding]);
        }
        return [...pages];
    }

    /** The places of a page: folded, with how many they are, and their names under 'Details'.
     * @param {Fax} fax @param {[string, Finding[]]} group */
    group(fax, [head, found]) {
        const item = document.createElement("li");
        const details = document.createElement("details");
        const summary = document.createElement("summary");
        const list = document.createElement("ul");
        const lost = found[0].isLost ? fax.lost.get(found[0].page) : null;
        summary.textContent = lost ? say(TEXTS.findings.places, head, sayCount(lost.count, "place"),
            sayCount(lost.rows, "row")) : say(TEXTS.findings.other, head, found[0].head);
        list.append(...found.map((finding) => {
            const place = document.createElement("li");
            place.append(Findings.button(finding, finding.head));
            return place;
        }));
        details.open = this.open.has(head);
        details.addEventListener("toggle", () => details.open ? this.open.add(head) : this.open.delete(head));
        details.append(summary, list, Findings.details(fax, head, found));
        item.append(details);
        return item;
    }

    /** The names of what is found, and what each means.
     * @param {Fax} fax @param {string} head @param {Finding[]} found */
    static details(fax, head, found) {
        const details = document.createElement("details");
        const summary = document.createElement("summary");
        const full = (/** @type {Finding} */ { name, tag }) => `${name}${tag ? ` ${tag}` : ""}`;
        const names = new Map(found.map((it) => [full(it), sayOfFault(it.name, it.tag)[0]]));
        details.className = "names";
        summary.textContent = TEXTS.findings.details;
        details.append(summary,
            ...found.map((it) => Findings.text("", `${head}, ${it.head}: ${full(it)}`, "name")),
            ...[...names].map(([name, means]) => Findings.text(name, means)),
            ...(found[0].isLost ? [Findings.text("", fax.unseenOf(found[0].page))] : []));
        return details;
    }

    /** What to do about what is found, each once, also where it is said in more words.
     * @param {Finding[]} found */
    static advice(found) {
        const all = [...new Set(found.map(({ name, tag }) => sayOfFault(name, tag)[1]))];
        return all.filter((it) => !all.some((other) => other !== it && other.includes(it))).slice(0, 3);
    }

    /** @param {Finding} finding @param {string} text */
    static button({ page, row }, text) {
        const button = document.createElement("button");
        button.type = "button";
        button.dataset.page = String(page);
        button.dataset.row = String(row);
        button.textContent = text;
        return button;
    }

    /** @param {string} name @param {string} text @param {string} [kind] */
    static text(name, text, kind = "") {
        const paragraph = document.createElement("p");
        paragraph.className = kind;
        paragraph.textContent = name ? `${name}: ${text}` : text;
        return paragraph;
    }
}
