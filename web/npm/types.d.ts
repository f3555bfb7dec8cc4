/** Bytes, in whatever they stand: a `Buffer` of Node is a `Uint8Array`. */
export type Bytes = ArrayBuffer | SharedArrayBuffer | Uint8Array | Uint8ClampedArray | Int8Array | DataView;

/** A page of a fax, as `faxpages list` prints it. */
export interface Page {
    /** From 0. */
    page: number;
    /** In pels. */
    width: number;
    rows: number;
    coding: "mh" | "mr" | "mmr";
    /** Which bit of a byte is first: 1 the highest, 2 the lowest. */
    order: number;
    photometric: number;
    strips: number;
    /** Pels across in a unit, as a fraction. */
    across: [number, number];
    /** Rows in a unit, as a fraction. */
    down: [number, number];
    /** 1 none, 2 inch, 3 centimetre. */
    unit: number;
}

export interface Row {
    /** From 0. */
    page: number;
    /** From 0. */
    row: number;
    /** Eight pels each, the first in the highest bit, 1 for black. */
    bytes: Uint8Array;
}

export interface Runs {
    /** From 0. */
    page: number;
    /** From 0. */
    row: number;
    /** How many pels are white, then how many are black, and so on: together they are the width. The first is 0 where
     * the row begins in black. */
    runs: number[];
}

export interface Note {
    /** From 0. */
    page: number;
    /** From 0; none where the note is on the page's directory. */
    strip: number | null;
    /** 1 to 5, or another one of a later library. */
    number: number;
    /** "Unknown" where a later library has none. */
    name: string;
}

/** What the receiver of a page counted of bad rows, those that it could not read (RFC 2306). A number is null where the
 * page has no such field, or one that is neither SHORT nor LONG, or whose first value lies outside the file. */
export interface Received {
    /** How many rows were bad: field 326, BadFaxLines. */
    badRows: number | null;
    /** 0 where no row was bad; 1 where some were, and the receiver put other rows in their places; 2 where bad rows stand
     * in the data: field 327, CleanFaxData. */
    clean: number | null;
    /** How many bad rows came one after another, at most: field 328, ConsecutiveBadFaxLines. */
    consecutive: number | null;
}

export interface Lost {
    /** The first row that is lost, from 0. */
    row: number;
    /** How many are. */
    rows: number;
    /** The name of the fault of the first. */
    name: string;
}

export interface Salvaged {
    /** From 0. */
    page: number;
    /** None where the page cannot be read. */
    form: Page | null;
    /** Its rows, of packed bytes; lost rows are white. */
    raster: Uint8Array;
    lost: Lost[];
    /** Why the page cannot be read. */
    fault: FaxFault | null;
}

/** How bare T.4 or T.6 data are coded. */
export interface HowCoded {
    coding: "mh" | "mr" | "mmr";
    /** In pels; 1728 is the usual one. */
    width: number;
    /** 0 where it is not known. */
    rows: number;
    /** Which bit of a byte is first: 1 the highest, 2 the lowest. */
    order: number;
    /** Whether an EOL stands before each row, of MH. */
    eols: boolean;
    /** Whether each row begins on a byte, where there are no EOLs. */
    aligned: boolean;
    /** Whether it has 204 by 196 pels to the inch, and not 204 by 98; by its rows, if it is not said. */
    fine: boolean;
}

export interface BareFax extends Salvaged {
    how: HowCoded;
    /** A TIFF-F file of one page, with what is found of it, for all other calls; empty where nothing is. */
    file: Uint8Array;
    /** Whether something follows the last row that is found, and it is not known how many rows that is. */
    isOpen: boolean;
}

/** A picture, as `new ImageData(data, width, height)` takes it. */
export interface Picture {
    width: number;
    height: number;
    /** Four bytes a pel: white, black, and grey (168) where a row is lost. */
    data: Uint8ClampedArray;
}

/** A page to be written: what `salvage` gives is one, where it has a form. */
export interface PageToWrite {
    form: {
        width: number;
        rows: number;
        /** 204 to the inch, if it is not said. */
        across?: number | [number, number];
        /** 196 to the inch, if it is not said. */
        down?: number | [number, number];
        unit?: number;
    } | null;
    raster: Bytes;
}

/** A fault of a file, in the words of the program. Its `name` is "FaxFault". */
export class FaxFault extends Error {
    constructor(name: string, fault: { number: number; tag: number; page: number; row: number }, place?: string);
    /** The name of the fault, such as BadCode. */
    fault: string;
    /** Of the field that it is about, or 0. */
    tag: number;
    /** What it means, in a sentence. */
    explanation: string;
    page: number;
    row: number;
}

/** The library faxpages, in WebAssembly: what its calls say of the bytes of a file. */
export class Faxpages {
    static readonly TARGETS: ("pbm" | "mh" | "mr" | "mmr")[];
    /** @param module a `WebAssembly.Module` of faxpages.wasm */
    constructor(module: object);
    /** Loads the library: the file faxpages.wasm beside the module, or its bytes or its `WebAssembly.Module`. */
    static load(source?: Bytes | object): Promise<Faxpages>;
    /** The version of the library. */
    version(): string;
    /** The pages up to the first fault of the file's directories, and that fault. */
    list(file: Bytes): { pages: Page[]; fault: FaxFault | null };
    /** The rows, one by one, as bytes; the first fault is thrown in the place of its row. */
    rows(file: Bytes): Generator<Row, void, void>;
    /** The same as runs of white and black. */
    runs(file: Bytes): Generator<Runs, void, void>;
    /** Reads all rows: how many pages and rows there are before the first fault, and the notes on them. */
    check(file: Bytes): { pages: number; rows: number; notes: Note[]; fault: FaxFault | null };
    /** What the receiver of a page, numbered from 0, counted of bad rows. Another fault up to the page is thrown, and a
     * RangeError where the file has no such page. */
    received(file: Bytes, page: number): Received;
    /** What is left, page by page, also after pages that are damaged or cannot be read; then the fault that ends the
     * chain of pages is thrown, if there is one. */
    salvage(file: Bytes): Generator<Salvaged, void, void>;
    /** A page as a picture. Pels and rows are repeated where the resolutions differ, so that it has its proportions;
     * with `square: false` each pel is one. */
    rgba(file: Bytes, page?: number, options?: { square?: boolean }): Picture;
    /** What is left of bare T.4 or T.6 data. How they are coded is guessed by how many rows are found, if it is not
     * said. */
    bare(data: Bytes, how?: Partial<HowCoded> & { coding: "mh" | "mr" | "mmr" }): BareFax;
    /** Writes pages as a TIFF-F file, each in its resolution. */
    write(pages: Iterable<PageToWrite>, to?: "mh" | "mr" | "mmr"): Uint8Array;
    /** Converts TIFF-F or raw PBM, whole or not at all: a fault is thrown. */
    convert(file: Bytes, to: "pbm" | "mh" | "mr" | "mmr"): Uint8Array;
    /** Writes a damaged file as a new one: lost rows are white, and counted in the fields 326 to 328. It is null where no page
     * has a form. */
    salvagedFile(file: Bytes, to: "pbm" | "mh" | "mr" | "mmr"): Uint8Array | null;
}
