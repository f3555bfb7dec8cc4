// Prints, as JSON, what the package of web/npm finds in bare data: of each file that is named, with how it is coded after
// it as JSON, or null where that is guessed.
import { readFileSync } from "node:fs";
import { Faxpages } from "faxpages";

const faxpages = await Faxpages.load();
const words = process.argv.slice(2);
process.stdout.write(JSON.stringify(Array.from({ length: words.length / 2 }, (_, at) => {
    const [path, how] = words.slice(2 * at, 2 * at + 2);
    const found = faxpages.bare(readFileSync(path), JSON.parse(how) ?? undefined);
    const again = found.form ? [...faxpages.salvage(found.file)] : [];
    return {
        how: found.how, form: found.form, raster: Buffer.from(found.raster).toString("base64"), isOpen: found.isOpen,
        lost: found.lost.map(({ row, rows, name }) => [row, rows, name]), fault: found.fault?.message ?? null,
        again: again.map(({ raster }) => Buffer.from(raster).toString("base64")),
    };
})));
