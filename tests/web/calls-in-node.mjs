// Prints, as JSON, what the calls of the package of web/npm give that the program has no command for: of each TIFF-F file
// that is named its rows as runs, its pages as pictures, and what is written of what is left.
import { readFileSync } from "node:fs";
import { FaxFault, Faxpages } from "faxpages";

const faxpages = await Faxpages.load();

/** What a call gives, or the fault that it throws. */
function tried(call) {
    try {
        return call();
    } catch (error) {
        if (!(error instanceof FaxFault) || error.name !== "FaxFault") {
            throw error;
        }
        return error.message;
    }
}

/** The rows as the program prints them, and the fault that ends them. */
function runs(file) {
    const lines = [];
    const end = tried(() => {
        for (const { page, row, runs } of faxpages.runs(file)) {
            lines.push(`row ${page} ${row} ${runs.join(" ")}`);
        }
        return "end";
    });
    return [...lines, end].join("\n");
}

/** A picture as 0, 1 or 2 a pel: white, black, grey. */
function picture(file, page) {
    const { width, height, data } = faxpages.rgba(file, page);
    const pels = Array.from({ length: width * height }, (_, pel) =>
        [data[4 * pel], data[4 * pel + 1], data[4 * pel + 2], data[4 * pel + 3]].join());
    const names = { "255,255,255,255": 0, "0,0,0,255": 1, "168,168,168,255": 2 };
    return [width, height, Buffer.from(pels.map((pel) => names[pel] ?? 3)).toString("base64")];
}

function written(file, to) {
    const pages = [...faxpages.salvage(file)].filter(({ form }) => form);
    return pages.length > 0 ? Buffer.from(faxpages.write(pages, to)).toString("base64") : "fault of all pages";
}

process.stdout.write(JSON.stringify(process.argv.slice(2).map((path) => {
    const file = readFileSync(path);
    const { pages } = faxpages.list(file);
    return {
        runs: runs(file), pictures: pages.map(({ page }) => tried(() => picture(file, page))),
        written: Object.fromEntries(["mh", "mr", "mmr"].map((to) => [to, tried(() => written(file, to))])),
    };
})));
