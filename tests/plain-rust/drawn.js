// As drawn.c, by the library in WebAssembly: node drawn.js MODULE <FILES
//
// The same calls over the same files, and the same sums of what they answer.
"use strict";
const fs = require("fs");
const wasm = new WebAssembly.Module(fs.readFileSync(process.argv[2]));
const calls = new WebAssembly.Instance(wasm).exports;
const memory = calls.memory;
const DONE = 0, NO_ROOM = 5;
const ROWS = 7, OUT = 1 << 18, RUNS = 65536, ROW_BYTES = 8192;
const TOLD = 8, ROW = 5, FORM = 13, PLACE = 4, REPORT = 10, CONVERTED = 8, STRIP_REPORT = 9;

// Takes pages of memory that nothing else uses.
const take = (bytes) => memory.grow(Math.ceil(bytes / 65536)) * 65536;

const file = take(1 << 20), out = take(OUT), runs = take(4 * RUNS), numbers = take(8 * RUNS);
const rows = take(4 * ROW * ROWS), place = take(16), told = take(32), forms = take(12 * FORM);
const notes = take(96), report = take(64), options = take(20);
let sum = 0;

const view = (at, count) => new Uint32Array(memory.buffer, at, count);

function add(number) {
    sum = Math.imul(sum ^ (number >>> 0), 16777619);
    sum = Math.imul(sum ^ Math.floor(number / 2 ** 32), 16777619);
}

function addAll(all) {
    for (const number of all) {
        sum = Math.imul(sum ^ number, 16777619);
    }
}

const addBytes = (at, len) => addAll(new Uint8Array(memory.buffer, at, len));

// Numbers of 64 bits, as two of 32.
const addWide = (at, count) => addAll(view(at, 2 * count));

function addTold(status) {
    const [count, used, ...others] = view(told, TOLD);
    [status, count, used].forEach(add);
    addAll(others);
    return count;
}

function addPlace() {
    addAll(view(place, PLACE));
    const count = view(place, PLACE)[3];
    addAll(view(runs, count <= RUNS ? count : 0));
}

function readRows(len) {
    let status, count;
    view(place, PLACE).set([1, 0, 0, 0]);
    do {
        view(told, TOLD).fill(0);
        status = calls.faxpages_rows_from(file, len, place, runs, RUNS, rows, ROWS, out, 20000, told);
        count = addTold(status);
        for (let i = 0; i < count; i++) {
            const [at, length, ...others] = view(rows + 4 * ROW * i, ROW);
            add(at);
            addAll([length, ...others]);
            addBytes(out + at, length);
        }
        addPlace();
    } while ((status === DONE || status === NO_ROOM) && count > 0);
    return status;
}

function readNumbers(len) {
    let status, count;
    view(told, TOLD).set([0, 0, 1, 0, 0, 0, 0, 0]);
    do {
        const [, , page, row] = view(told, TOLD);
        status = calls.faxpages_runs(file, len, page, row, rows, ROWS, numbers, 2 * RUNS, told);
        count = addTold(status);
        addAll(view(numbers, view(told, TOLD)[1]));
    } while ((status === DONE || status === NO_ROOM) && count > 0);
    addTold(calls.faxpages_changes(file, len, 1, 0, rows, ROWS, numbers, 2 * RUNS, told));
    addAll(view(numbers, view(told, TOLD)[1]));
}

function readPages(len) {
    view(forms, 3 * FORM).fill(0);
    view(told, TOLD).fill(0);
    const count = addTold(calls.faxpages_forms(file, len, 1, forms, 3, told));
    addAll(view(forms, count * FORM));
    view(told, TOLD).fill(0);
    new Uint8Array(memory.buffer, out, 1 << 16).fill(0);
    addTold(calls.faxpages_page(file, len, 1, forms, out, 1 << 16, ROW_BYTES, told));
    addBytes(out, 1 << 10);
    view(report, REPORT).fill(0);
    add(calls.faxpages_check(file, len, notes, 8, report));
    addWide(report, 2);
    const [seen, ...fault] = view(report + 16, 5);
    add(seen);
    addAll(fault);
    addAll(view(notes, 3 * Math.min(seen, 8)));
}

function convert(len, number) {
    for (let target = 0; target < 4; target++) {
        const aligned = target % 3 ? (number >>> 1) % 2 : 0;
        view(options, 5).set([target, 1 + (number % 2), 1 + (number % 4), number % 3, aligned]);
        view(report, CONVERTED).fill(0);
        const status = calls.faxpages_convert(file, len, options, out, OUT, report);
        const made = view(report, 1)[0];
        add(status);
        add(made);
        addWide(report + 8, 1);
        addAll(view(report + 16, 4));
        if (status === DONE) {
            addBytes(out, made);
        }
        const salvaged = calls.faxpages_salvage_convert(file, len, options, out, OUT, report);
        const length = view(report, 1)[0];
        add(salvaged);
        add(length);
        addAll(view(report + 16, 4));
        if (salvaged === DONE) {
            addBytes(out, length);
        }
    }
}

function readStrip(len, number) {
    const from = Math.min(len, 8);
    const form = [1 + (number % 97), number % 5, 1 + (number % 3), 1 + (Math.floor(number / 3) % 2), 0];
    view(options, 5).set(form);
    view(place, PLACE).fill(0);
    view(told, TOLD).fill(0);
    const status = calls.faxpages_strip_rows(
        file + from, len - from, options, place, runs, RUNS, out, 4096, 13, told);
    addBytes(out, 13 * addTold(status));
    addPlace();
    view(report, STRIP_REPORT).fill(0);
    add(calls.faxpages_strip_check(file + from, len - from, options, report));
    addAll(view(report, STRIP_REPORT));
}

const given = fs.readFileSync(0);
const lines = [];
for (let at = 0, number = 0; at < given.length; number++) {
    const len = given.readUInt32LE(at);
    new Uint8Array(memory.buffer, file, len).set(given.subarray(at + 4, at + 4 + len));
    at += 4 + len;
    sum = 2166136261 | 0;
    let status;
    try {
        status = readRows(len);
        readNumbers(len);
        readPages(len);
        convert(len, number);
        readStrip(len, number);
    } catch (error) {
        console.error(String(error));
        process.exitCode = 1;
        break;
    }
    lines.push(`${status} ${(sum >>> 0).toString(16).padStart(8, "0")}\n`);
}
process.stdout.write(lines.join(""));
