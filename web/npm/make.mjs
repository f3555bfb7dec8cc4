// Makes what the package has beside its texts, of the scripts of the page: faxpages.mjs and faxpages.cjs, which are one
// text for `import` and for `require`, the types of both, and faxpages.wasm. `npm pack` runs it. It needs tsc
// (node-typescript of Debian), by which it sees that the scripts are what types.d.ts says.
import { execFileSync } from "node:child_process";
import { mkdtempSync, readFileSync, rmSync, writeFileSync } from "node:fs";
import { tmpdir } from "node:os";
import { dirname, join } from "node:path";
import { fileURLToPath } from "node:url";
import { runInNewContext } from "node:vm";

const here = dirname(fileURLToPath(import.meta.url));
const web = dirname(here);
const read = (name) => readFileSync(join(web, name), "utf8").replace(/^"use strict";\n/, "");
const write = (name, data) => writeFileSync(join(here, name), data);

// What each fault means, by its name, or by its name and the tag of its field: the sentences of the page.
const texts = runInNewContext(`${read("texts.js")}; TEXTS`);
const meanings = Object.fromEntries(Object.entries(texts.faults).map(
    ([name, [means]]) => [name.replace(/(?<=[a-z])(?=\d)/, " "), means]));
const table = `/** @type {Record<string, string>} */\nconst MEANINGS = ${JSON.stringify(meanings, null, 4)};\n`;

// How a module finds the file beside it is all in which the two differ.
const beside = /( {4}static async beside\(\) \{\n)[^]*?(\n {4}\}\n)/;
const files = `        const files = "node:fs/promises";
        const { readFile } = await import(/* webpackIgnore: true */ /* @vite-ignore */ files);
        return readFile(\`\${__dirname}/faxpages.wasm\`);`;

const module = [...["library.js", "salvaging.js", "bare.js"].map(read), table, read("npm/api.js")].join("\n");
const common = module.replace(/^export class/gm, "class").replace(beside, (_, head, end) => head + files + end);
if (common.includes("import.meta")) {
    throw new Error("api.js has another way to the file beside it");
}
write("faxpages.mjs", module.replaceAll('import("./types")', 'import("./faxpages.mjs")'));
write("faxpages.cjs", `"use strict";\n\n${common.replaceAll('import("./types")', 'import("./faxpages.cjs")')}
module.exports = { FaxFault, Faxpages };\n`);
const [, packed] = /`\n([^`]*)`/.exec(read("faxpages.wasm.js"));
write("faxpages.wasm", Buffer.from(packed, "base64"));
const licence = readFileSync(join(web, "..", "licences", "web.txt"), "utf8");
write("LICENSE", licence.slice(licence.indexOf("\n") + 1));
const types = readFileSync(join(here, "types.d.ts"), "utf8");
write("faxpages.d.mts", types);
write("faxpages.d.cts", types);

const room = mkdtempSync(join(tmpdir(), "faxpages-types-"));
try {
    writeFileSync(join(room, "made.js"), module);
    writeFileSync(join(room, "types.d.ts"), types);
    writeFileSync(join(room, "same.ts"), `import * as made from "./made";
import type * as types from "./types";
export const { Faxpages, FaxFault }: typeof types = made;
`);
    execFileSync("tsc", ["--noEmit", "--allowJs", "--checkJs", "--strict", "--target", "es2022", "--module", "es2022",
        "--moduleResolution", "node", "--lib", "es2022,dom", join(room, "same.ts")],
    { stdio: ["ignore", 2, 2], cwd: room });
} finally {
    rmSync(room, { recursive: true });
}
