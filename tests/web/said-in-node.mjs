// Prints what the package of web/npm says of each file that is named, as JSON.
import { readFileSync } from "node:fs";
import { Faxpages } from "faxpages";
import { told } from "./said.mjs";

const faxpages = await Faxpages.load();
process.stdout.write(JSON.stringify({
    version: faxpages.version(), node: process.version,
    told: process.argv.slice(2).map((path) => told(faxpages, readFileSync(path))),
}));
