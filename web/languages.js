"use strict";

/** The language that the page speaks: the one that was chosen, or else the first of the browser's that there is. */
class Languages {
    /** Its name in the storage of the page. */
    static PLACE = "faxpages-language";
    static FIRST = "en";

    /** @param {HTMLSelectElement} box @param {() => void} changed */
    constructor(box, changed) {
        this.box = box;
        box.replaceChildren(...[...LANGUAGES].map(([code, { language }]) => {
            const option = document.createElement("option");
            [option.value, option.textContent, option.lang] = [code, language, code];
            return option;
        }));
        this.use(Languages.wanted());
        box.addEventListener("change", () => {
            this.keep(box.value);
            this.use(box.value);
            changed();
        });
    }

    /** @param {string} code */
    use(code) {
        TEXTS = LANGUAGES.get(code) ?? ENGLISH;
        this.box.value = code;
        document.documentElement.lang = code;
    }

    /** @param {string} code */
    keep(code) {
        try {
            localStorage.setItem(Languages.PLACE, code);
        } catch {
            // A browser that gives no storage forgets it.
        }
    }

    /** The code of the language that is spoken first. */
    static wanted() {
        let kept = "";
        try {
            kept = localStorage.getItem(Languages.PLACE) ?? "";
        } catch {
            // A browser that gives no storage keeps none.
        }
        const codes = [kept, ...navigator.languages.map((it) => it.split("-")[0])];
        return codes.find((code) => LANGUAGES.has(code)) ?? Languages.FIRST;
    }
}
