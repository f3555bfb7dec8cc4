// Prints what the package of web/npm says of a fax, over a library that answers as a later version may (later.js).
import { readFileSync } from "node:fs";
import { Faxpages } from "faxpages";

const [later, path] = process.argv.slice(2);
new Function(readFileSync(later, "utf8"))();
const file = readFileSync(path);
const faxpages = await Faxpages.load();
const calls = {
    list: () => faxpages.list(file), check: () => faxpages.check(file), rows: () => [...faxpages.rows(file)].length,
    salvage: () => [...faxpages.salvage(file)].map(({ lost }) => lost), convert: () => faxpages.convert(file, "mmr").length,
    salvagedFile: () => faxpages.salvagedFile(file, "mmr")?.length,
};
for (const what of ["", "notes", "fault", "status"]) {
    globalThis.LATER = what;
    for (const [name, call] of Object.entries(calls)) {
        let said;
        try {
            said = call();
        } catch (error) {
            said = { thrown: error.message };
        }
        const { pages, notes, fault, thrown } = Object(said);
        console.log([what, name, Array.isArray(pages) ? pages.length : pages ?? (thrown ? "" : JSON.stringify(said)),
            notes ? JSON.stringify(notes) : "", fault ? `${fault.message} (${fault.explanation})` : "", thrown ?? ""].join("|"));
    }
}
