// Prints the rows of files as `faxpages rows` does, by the library in WebAssembly: node rows.js MODULE FILE..
//
// Each file is also converted to MMR, whose length and bytes, as a sum, stand in a line after its rows.
"use strict";
const fs = require("fs");
const [modulePath, ...files] = process.argv.slice(2);
const wasm = new WebAssembly.Module(fs.readFileSync(modulePath));
if (WebAssembly.Module.imports(wasm).length !== 0) {
    throw new Error("the module asks for imports");
}
const calls = new WebAssembly.Instance(wasm).exports;
const memory = calls.memory;
const DONE = 0, END = 1, FAULT = 2, NO_ROOM = 5;
const ROWS = 1000, RUNS = 65536, NUMBERS = 1 << 18;

// Takes pages of memory that nothing else uses: the library's own allocator grows by others.
function take(bytes) {
    return memory.grow(Math.ceil(bytes / 65536)) * 65536;
}

const numbers = (at, count) => Array.from(new Uint32Array(memory.buffer, at, count));

function nameOf(number) {
    const at = take(16);
    const len = calls.faxpages_fault_name(number, at, 16);
    return Buffer.from(memory.buffer, at, len).toString();
}

// The line of a fault: number, tag, page and row.
function faultLine([number, tag, page, row]) {
    return `fault page ${page} row ${row}: ${nameOf(number)}${tag ? " " + tag : ""}`;
}

function rows(file, len) {
    const place = take(16), runs = take(4 * RUNS), table = take(20 * ROWS), out = take(4 * NUMBERS), told = take(32);
    const lines = [];
    for (;;) {
        const status = calls.faxpages_runs_from(file, len, place, runs, RUNS, table, ROWS, out, NUMBERS, told);
        const [count, , , , ...fault] = numbers(told, 8);
        for (let i = 0; i < count; i++) {
            const [at, length, page, row] = numbers(table + 20 * i, 5);
            lines.push(`row ${page} ${row} ${numbers(out + 4 * at, length).join(" ")}`);
        }
        if (status === END) {
            return [...lines, "end"];
        }
        if (status === FAULT) {
            return [...lines, faultLine(fault)];
        }
        if (status !== DONE && status !== NO_ROOM) {
            throw new Error(`status ${status}`);
        }
    }
}

function converted(file, len) {
    const room = 1 << 20, options = take(20), out = take(room), told = take(32);
    new Uint32Array(memory.buffer, options, 5).set([3, 1, 4, 0, 0]);
    if (calls.faxpages_convert(file, len, options, out, room, told) !== DONE) {
        return "no output";
    }
    const bytes = new Uint8Array(memory.buffer, out, numbers(told, 1)[0]);
    return `${bytes.length} bytes, sum ${bytes.reduce((sum, byte) => sum + byte, 0)}`;
}

for (const name of files) {
    const bytes = fs.readFileSync(name);
    const file = take(bytes.length + 1);
    new Uint8Array(memory.buffer, file, bytes.length).set(bytes);
    console.log([name, ...rows(file, bytes.length), converted(file, bytes.length)].join("\n"));
}
