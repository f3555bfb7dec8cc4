// Has the library in WebAssembly answer as a later version may, before it is loaded: tests/library/later.c is the same for C.
// `LATER` in the global scope says with what: notes, fault or status.
{
    const [NAMED, UNNAMED, TAG, FAULT, NO_STRIP] = [98, 99, 300, 2, 0xffffffff];
    const Instance = WebAssembly.Instance;
    // Where a call tells its fault: how many bytes it tells, and how many of these stand before the fault.
    const TOLD = { forms: [32, 16], rows_from: [32, 16], salvage: [32, 16], strip_rows: [32, 16], check: [40, 20],
        convert: [32, 16], salvage_convert: [32, 16] };
    const later = (memory, call, [size, before]) => (...words) => {
        const told = new Uint32Array(memory.buffer, words[words.length - 1], size / 4);
        if (globalThis.LATER !== "fault" && globalThis.LATER !== "status") {
            return call(...words);
        }
        told.fill(0);
        if (globalThis.LATER === "status") {
            return UNNAMED;
        }
        told.set([UNNAMED, TAG, 0, 0], before / 4);
        return FAULT;
    };
    const noted = (memory, call) => (...words) => {
        const status = call(...words);
        if (globalThis.LATER === "notes") {
            const [notes, room, report] = words.slice(2);
            const all = [0, 0, NAMED, 0, NO_STRIP, UNNAMED].slice(0, 3 * Math.min(room, 2));
            new Uint32Array(memory.buffer, notes, all.length).set(all);
            new Uint32Array(memory.buffer, report + 16, 1)[0] = 2;
        }
        return status;
    };
    const named = (memory, call) => (number, name, room) => {
        if (number !== NAMED) {
            return call(number, name, room);
        }
        const text = [..."LaterNote"].map((letter) => letter.charCodeAt(0));
        new Uint8Array(memory.buffer, name, text.length).set(text);
        return text.length;
    };
    WebAssembly.Instance = function (...words) {
        const calls = { ...new Instance(...words).exports };
        for (const [name, told] of Object.entries(TOLD)) {
            calls[`faxpages_${name}`] = later(calls.memory, calls[`faxpages_${name}`], told);
        }
        calls.faxpages_check = noted(calls.memory, calls.faxpages_check);
        calls.faxpages_note_name = named(calls.memory, calls.faxpages_note_name);
        return { exports: calls };
    };
}
