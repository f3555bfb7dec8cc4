"""Whether all that a person can read on the page is of the file of texts: in a language whose texts are those of German
in brackets, no word stands outside of these."""

from __future__ import annotations

from tests.web.browser import Browser

# Makes that language.
MARK = """(() => {
    const marked = (it) => typeof it === "string" ? it && `\u27e6${it}\u27e7` : Array.isArray(it) ? it.map(marked)
        : Object.fromEntries(Object.entries(it).map(([key, its]) =>
            [key, key === "locale" ? its : marked(its)]));
    LANGUAGES.set("marked", marked(LANGUAGES.get("de")));
})()"""
# Speaks it, and English again: what was said that has words outside of brackets. The names of files, of faults and of
# notes, keys, the names of languages, and the lines that the program prints too are of no language.
LEFT = """(() => {
    app.languages.use("marked");
    app.retell();
    const names = app.faxes.flatMap(({ file, making }) => [sayName(file.name), making?.name ?? ""]).filter(Boolean);
    const kept = [...Object.keys(ENGLISH.faults), ...Object.keys(ENGLISH.notes)].join("|");
    const known = new RegExp(`\\\\b(N[0-9]+|${kept})\\\\b`, "g");
    const outside = (text) => {
        let [depth, found] = [0, ""];
        for (const letter of text) {
            depth += letter === "\u27e6" ? 1 : letter === "\u27e7" ? -1 : 0;
            found += depth === 0 ? letter : " ";
        }
        return names.reduce((it, name) => it.replaceAll(name, " "), found).replace(known, " ");
    };
    // While no file is open, nobody can read what stands about one.
    const isOther = (element) =>
        element.closest("script, style, noscript, kbd, bdi, #language, #report-text, #fax[hidden]");
    const said = [["title", document.title]];
    for (const element of document.body.querySelectorAll("*")) {
        if (!isOther(element)) {
            said.push(...["title", "aria-label", "placeholder", "alt"].map((name) =>
                [`${element.id} ${name}`, element.getAttribute(name) ?? ""]));
            said.push(...[...element.childNodes].filter((it) => it.nodeType === Node.TEXT_NODE).map((it) =>
                [element.id || element.parentElement.id, it.data]));
        }
    }
    app.languages.use("en");
    app.retell();
    return said.filter(([, text]) => /\\p{L}{2}/u.test(outside(text))).map((it) => it.join(": "));
})()"""


def left(browser: Browser) -> list[str]:
    """What can be read that is not of the file of texts."""
    return [f"not of the file of texts: {it}" for it in browser.run(LEFT)]
