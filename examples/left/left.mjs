// Prints the rows of a fax that are found and those that are lost, and writes a copy in MMR: left.mjs FAX.tif COPY.tif
import { readFileSync, writeFileSync } from "node:fs";
import { Faxpages } from "faxpages";

const faxpages = await Faxpages.load();
const pages = [...faxpages.salvage(readFileSync(process.argv[2]))];
for (const { page, form, lost, fault } of pages) {
    let next = 0;
    if (fault) console.log("lost", fault.message); // a page is refused
    for (const { row, rows, name } of form ? [...lost, { row: form.rows }] : []) {
        for (; next < row; next++) console.log("row", page, next);
        if (rows) console.log("lost", page, row, rows, name);
        next += rows;
    }
}
writeFileSync(process.argv[3], faxpages.write(pages.filter(({ form }) => form), "mmr"));
