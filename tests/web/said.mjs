// What the package of web/npm says of a file, in the lines of the program.
import { FaxFault } from "faxpages";

/** The lengths of runs of a row of packed bytes, white first. */
function runsOf(bytes, width) {
    const runs = [];
    let [colour, length] = [0, 0];
    for (let pel = 0; pel < width; pel++) {
        const bit = (bytes[pel >> 3] >> (7 - (pel & 7))) & 1;
        if (bit !== colour) {
            runs.push(length);
            [colour, length] = [bit, 0];
        }
        length++;
    }
    return [...runs, length].join(" ");
}

/** What a call says, and its fault as the last line. */
function said(call) {
    const lines = [];
    try {
        call(lines);
    } catch (error) {
        if (!(error instanceof FaxFault)) {
            throw error;
        }
        lines.push(error.message);
    }
    return lines.join("\n");
}

function list(faxpages, file, lines) {
    const { pages, fault } = faxpages.list(file);
    lines.push(...pages.map(({ page, width, rows, coding, order, photometric, strips, across, down, unit }) =>
        `page ${page} ${width} ${rows} ${coding} ${order} ${photometric} ${strips} ${across.join("/")} ` +
        `${down.join("/")} ${unit}`), fault ? fault.message : "end");
}

function rows(faxpages, file, widths, lines) {
    for (const { page, row, bytes } of faxpages.rows(file)) {
        lines.push(`row ${page} ${row} ${runsOf(bytes, widths[page])}`);
    }
    lines.push("end");
}

function check(faxpages, file, lines) {
    const { pages, rows: count, notes, fault } = faxpages.check(file);
    lines.push(
        ...notes.map(({ page, strip, number, name }) =>
            `note page ${page}${strip === null ? "" : ` strip ${strip}`}: N${number} ${name}`),
        `pages ${pages} rows ${count}`, ...(fault ? [fault.message] : []));
}

function salvage(faxpages, file, lines) {
    for (const { page, form, raster, lost, fault } of faxpages.salvage(file)) {
        if (!form) {
            lines.push(`lost ${page} ${fault.fault}${fault.tag ? ` ${fault.tag}` : ""}`);
            continue;
        }
        const stride = (form.width + 7) >> 3;
        const starts = new Map(lost.map((it) => [it.row, it]));
        for (let row = 0; row < form.rows;) {
            const it = starts.get(row);
            lines.push(it ? `lost ${page} ${row} ${it.rows} ${it.name}`
                : `row ${page} ${row} ${runsOf(raster.subarray(row * stride), form.width)}`);
            row += it ? it.rows : 1;
        }
    }
}

/** @param {Uint8Array} bytes */
function base64(bytes) {
    return btoa(Array.from(bytes, (byte) => String.fromCharCode(byte)).join(""));
}

/** All that it says of a file, by the names of its calls, and what it makes of it. */
export function told(faxpages, file) {
    const widths = faxpages.list(file).pages.map(({ width }) => width);
    return {
        list: said((lines) => list(faxpages, file, lines)), rows: said((lines) => rows(faxpages, file, widths, lines)),
        check: said((lines) => check(faxpages, file, lines)), salvage: said((lines) => salvage(faxpages, file, lines)),
        ...Object.fromEntries(["mmr", "mr", "mh", "pbm"].map((to) =>
            [to, said((lines) => lines.push(base64(faxpages.convert(file, to))))])),
        ...Object.fromEntries(["mmr", "mr", "mh", "pbm"].map((to) =>
            [`salvaged ${to}`, said((lines) => lines.push(base64(faxpages.salvagedFile(file, to) ?? [])))])),
    };
}
