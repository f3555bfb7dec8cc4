"use strict";

/** The list of the files that are open: what each is like, how many there are, and a filter where they are many. */
class Files {
    /** Of so many files the list has a filter, and stands in lines. */
    static MANY = 8;

    /** @param {{ show: (fax: Fax) => void, closeAll: () => void, saveAll: () => void }} does */
    constructor({ show, closeAll, saveAll }) {
        this.show = show;
        /** What was brought into sight last.
         * @type {Fax | null} */
        this.chosen = null;
        this.list = the("files-list");
        the("close-all").addEventListener("click", closeAll);
        the("save-all").addEventListener("click", saveAll);
        for (const id of ["filter", "filter-look"]) {
            the(id).addEventListener("input", () => this.filter());
        }
    }

    /** What a file looks like in the list.
     * @param {Fax} fax @returns {"failed" | "busy" | "other" | "whole" | "mended" | "slight" | "damaged"} */
    static lookOf(fax) {
        return fax.failure ? "failed" : fax.isBusy() ? "busy" : fax.otherKind() ? "other" : fax.look();
    }

    /** Whether something is missing of a file.
     * @param {Fax} fax */
    static isLossy(fax) {
        return ["slight", "damaged"].includes(Files.lookOf(fax));
    }

    /** @param {Fax[]} faxes @param {Fax | null} shown */
    render(faxes, shown) {
        the("files").hidden = faxes.length < 2;
        the("files").classList.toggle("many", faxes.length >= Files.MANY);
        const buttons = faxes.map((fax) => this.dressed(fax, fax === shown));
        if (buttons.length !== this.list.childElementCount || buttons.some((button) => !button.isConnected)) {
            this.list.replaceChildren(...buttons);
        }
        the("files-count").textContent = Files.counted(faxes);
        the("save-all").disabled = !faxes.some((fax) => fax.pages > 0 && !fax.isBusy());
        this.filter();
        if (this.chosen !== shown) {
            this.chosen = shown;
            the(`file-${shown?.number}`)?.scrollIntoView({ block: "nearest", inline: "nearest" });
        }
    }

    /** How many files there are, and of each look.
     * @param {Fax[]} faxes */
    static counted(faxes) {
        /** @type {Map<string, number>} */
        const counts = new Map();
        for (const look of faxes.map(Files.lookOf)) {
            counts.set(look, (counts.get(look) ?? 0) + 1);
        }
        const parts = Object.entries(TEXTS.counted).flatMap(([look, text]) => {
            const count = counts.get(look);
            return count ? [say(text, count)] : [];
        });
        return `${sayCount(faxes.length, "file")}: ${parts.join("; ")}`;
    }

    /** Hides what the filter leaves out. */
    filter() {
        const isMany = this.list.childElementCount >= Files.MANY;
        const name = isMany ? the("filter").value.trim().toLowerCase() : "";
        const look = isMany ? the("filter-look").value : "";
        for (const button of this.list.children) {
            const isLeft = !button.firstChild.textContent.toLowerCase().includes(name) ||
                (look !== "" && !button.classList.contains(look));
            button.hidden = isLeft;
        }
    }

    /** The button of a file, as the file is now.
     * @param {Fax} fax @param {boolean} isShown */
    dressed(fax, isShown) {
        const button = the(`file-${fax.number}`) ?? this.made(fax);
        const look = Files.lookOf(fax);
        const state = `, ${TEXTS.looks[look]}`;
        button.className = look;
        if (button.lastChild.textContent !== state) {
            button.lastChild.textContent = state;
            button.title = `${button.firstChild.textContent}${state}`;
        }
        button.setAttribute("aria-pressed", String(isShown));
        return button;
    }

    /** @param {Fax} fax */
    made(fax) {
        const button = document.createElement("button");
        const name = document.createElement("bdi");
        const state = document.createElement("span");
        button.type = "button";
        button.id = `file-${fax.number}`;
        name.textContent = sayName(fax.file.name);
        state.className = "unseen";
        button.append(name, state);
        button.addEventListener("click", () => this.show(fax));
        return button;
    }
}
