// Prints, as JSON, what the package of web/npm says of what it is given, loaded by `require`.
const { readFileSync } = require("node:fs");
const { Faxpages, FaxFault } = require("faxpages");

const file = readFileSync(process.argv[2]);
const exact = file.buffer.slice(file.byteOffset, file.byteOffset + file.byteLength);
const given = {
    "Buffer": file, "Uint8Array": new Uint8Array(file), "ArrayBuffer": exact,
    "DataView": new DataView(file.buffer, file.byteOffset, file.byteLength), "Int8Array": new Int8Array(exact),
    "Uint16Array": new Uint16Array(exact), "Float64Array": new Float64Array(8), "path": process.argv[2],
    "Array": [...file], "Blob": new Blob([file]), "promise": Promise.resolve(file), "undefined": undefined,
    "null": null, "number": 7, "object": {},
};

function said(call) {
    try {
        return call();
    } catch (error) {
        return `${error.name}: ${error.message}`;
    }
}

(async () => {
    const faxpages = await Faxpages.load();
    const calls = {
        list: (it) => faxpages.list(it).pages.length, check: (it) => faxpages.check(it).rows,
        rows: (it) => typeof faxpages.rows(it).next, runs: (it) => typeof faxpages.runs(it).next,
        salvage: (it) => typeof faxpages.salvage(it).next, rgba: (it) => faxpages.rgba(it, 0).width,
        convert: (it) => faxpages.convert(it, "pbm").length,
    };
    const page = { form: { width: 9, rows: 2 }, raster: new Uint8Array(4) };
    const odd = {
        "convert to": () => faxpages.convert(file, "gif"), "no page": () => faxpages.rgba(file, 9),
        "half a page": () => faxpages.rgba(file, 0.5), "text for a page": () => faxpages.rgba(file, "0"),
        "no pages": () => faxpages.write([]), "bytes for pages": () => faxpages.write(file),
        "a short raster": () => faxpages.write([{ ...page, raster: new Uint8Array(3) }]),
        "a page without a form": () => faxpages.write([page, { form: null, raster: page.raster }]),
        "a wide page": () => faxpages.write([{ ...page, form: { width: 70000, rows: 2 } }]),
        "another coding": () => faxpages.write([page], "pbm"),
        "text for a coding": () => faxpages.bare(file, "mmr"), "bare without a coding": () => faxpages.bare(file, {}),
        "a bare width": () => faxpages.bare(file, { coding: "mh", width: 0 }),
        "no bare data": () => faxpages.bare(new Uint8Array(500)), "a bare path": () => faxpages.bare("fax.g4"),
        "another module": () => new Faxpages(new WebAssembly.Module(Uint8Array.of(0, 97, 115, 109, 1, 0, 0, 0))),
    };
    const fault = new FaxFault("BadCode", { tag: 0, page: 1, row: 2 });
    const path = await Faxpages.load("faxpages.wasm").catch((error) => `${error.name}: ${error.message}`);
    process.stdout.write(JSON.stringify({
        node: process.version, version: faxpages.version(),
        given: Object.fromEntries(Object.entries(given).map(([name, it]) => [name, Object.fromEntries(
            Object.entries(calls).map(([call, does]) => [call, said(() => does(it))]))])),
        odd: Object.fromEntries(Object.entries(odd).map(([name, does]) => [name, said(does)])),
        path, fault: [fault.name, String(fault), fault.stack.split("\n")[0], Object.keys(fault).includes("name")],
    }));
})();
