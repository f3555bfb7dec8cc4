// Reads a file that tests/library/receivers.py printed, and sees that the package of web/npm says the same of what the
// receiver of each page counted. Prints how many pages were tried, how many of them are there, and how many numbers these
// have, or the first line that is otherwise.
import { readFileSync } from "node:fs";
import { FaxFault, Faxpages } from "faxpages";

const faxpages = await Faxpages.load();

/** What the package says of a page, in the words of a line. */
function said(file, page) {
    try {
        const { badRows, clean, consecutive } = faxpages.received(file, page);
        return ["there", badRows, clean, consecutive].map((number) => number ?? "-").join(" ");
    } catch (error) {
        if (error instanceof FaxFault) {
            return `fault ${error.tag}`;
        }
        if (error instanceof RangeError) {
            return "none";
        }
        throw error;
    }
}

const counts = { pages: 0, there: 0, numbers: 0 };
for (const line of readFileSync(process.argv[2], "utf8").trimEnd().split("\n")) {
    const [page, status, , tag, ...rest] = line.split(" ");
    const digits = rest.pop();
    const wanted = status === "0" ? `there ${rest.join(" ")}` : status === "2" ? `fault ${tag}` : "none";
    if (said(Buffer.from(digits === "-" ? "" : digits, "hex"), Number(page)) !== wanted) {
        console.log(line);
        break;
    }
    counts.pages++;
    counts.there += status === "0";
    counts.numbers += rest.filter((number) => number !== "-").length;
}
console.log(`${counts.pages} pages, ${counts.there} there, ${counts.numbers} numbers`);
