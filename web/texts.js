"use strict";

/** What to do about a page that is missing, or rows of it. */
const TEXTS_OF_PAGE = "If you need what is missing, ask the sender for the page again.";
const TEXTS_OF_NOISE = "As a rule this is noise on the telephone line, or the call was cut off. What is missing is " +
    `not in the file. ${TEXTS_OF_PAGE}`;

/** What the page says, all of it, in English. Another language is a file beside this one, such as texts-de.js, with
 * each of these texts, and a line in index.html. */
const ENGLISH = {
    /** What the language is called in itself, and how numbers are written in it. */
    language: "English",
    locale: "en-US",
    /** What is counted: one, and many. */
    counts: { page: ["page", "pages"], row: ["row", "rows"], file: ["file", "files"], place: ["place", "places"] },
    title: "Fax pages",
    /** What stands in index.html, by its data-text and data-label. */
    page: {
        skip: "Go to the page",
        head: "Fax pages",
        motto: "Shows a fax, and says what is missing of it. Nothing leaves this computer.",
        open: "Open files…",
        openFolder: "Open a folder…",
        keep: "Keep open files over a reload",
        welcome: "Drop faxes or folders here, paste them, or choose them by Open files…",
        welcomeMore: "Files from fax servers (TIFF), raw PBM, and bare fax data (T.4, T.6). Damaged ones too: all " +
            "that is left is shown, and what is missing is marked.",
        stop: "Stop reading",
        notes: "Look for notes",
        bareOpen: "It is bare fax data…",
        again: "Read it again",
        print: "Print",
        chosen: "Pages",
        chosenLong: "Pages to print and to save: all, or as 1-3, 5",
        language: "Language",
        zoom: "Zoom: 100% is as large as on paper",
        invert: "Invert",
        marks: "Marks",
        notice: "Notes for other programs",
        filter: "Files with this in their name",
        filterLook: "Files of this kind",
        allFiles: "all",
        wholeFiles: "whole",
        mendedFiles: "mended by the receiver",
        slightFiles: "readable, rows are missing",
        damagedFiles: "much is missing",
        otherFiles: "no fax",
        saveAll: "Save all as PDF",
        closeAll: "Close all",
        damaged: "Next file with missing rows",
        close: "Close",
        more: "What is missing, report, keys",
        findings: "What is missing",
        bare: "How it is coded",
        coding: "Coding",
        mh: "MH (T.4, one-dimensional)",
        mr: "MR (T.4, two-dimensional)",
        mmr: "MMR (T.6)",
        width: "Width in dots",
        rows: "Number of rows, 0 if it is not known",
        order: "First bit of a byte",
        highest: "the highest",
        lowest: "the lowest",
        resolution: "Resolution",
        fine: "204 by 196 to the inch (fine)",
        standard: "204 by 98 to the inch (standard)",
        eols: "An EOL stands before each row (MH)",
        aligned: "Each row begins on a byte",
        read: "Read",
        saveAs: "Save as",
        pdf: "PDF",
        tiffMmr: "TIFF (MMR)",
        tiffMr: "TIFF (MR)",
        tiffMh: "TIFF (MH)",
        pbm: "PBM",
        png: "PNG of this page",
        text: "Report (text)",
        saveMake: "Save",
        cancel: "Cancel",
        hint: "PDF and PNG have all that is found, with missing rows grey; TIFF has it with missing rows white; PBM " +
            "has whole pages only.",
        hintPages: "Beside Print and Save you can choose pages.",
        report: "Report",
        keys: "Keys",
        letters: "Single letters, numbers and signs are keys",
        keyPages: "the next page, the one before",
        keyEnds: "the first page, the last",
        keyZoom: "larger, smaller",
        keySizes: "the whole page, its width, a dot as a dot",
        keyTurn: "turn right, turn left",
        keyFinding: "the next place where rows are missing",
        keyDamaged: "the next file of which something is missing",
        keyMarks: "marks beside the page, on and off",
        keyInvert: "black as white, and back",
        keyPrint: "print all pages, or those that are named",
        keyFull: "full screen, and back",
        keyCopy: "copy the page as a picture",
        keyScroll: "scroll a little; left and right turn pages where nothing is to be scrolled; the mouse drags the " +
            "page, and zooms by its wheel with Ctrl",
        keyScreen: "scroll by a screen; the next page, the one before, where the whole page is shown",
        keyOpen: "open files",
        page: "Page",
        whole: "Whole page",
        wide: "Width",
        files: "Open files",
        about: "About this fax",
        reading: "Reading",
        making: "Making",
        pages: "Pages",
        before: "Page before",
        next: "Next page",
        smaller: "Smaller",
        larger: "Larger",
        left: "Turn left",
        right: "Turn right",
        full: "Full screen",
        copy: "Copy",
        view: "Picture of the page",
    },
    /** What a fault means, in the words of docs/TROUBLESHOOTING.md, and what to do about it; why something cannot be
     * read, for somebody who has never seen a fax's inside. */
    faults: {
        ShortHeader: ["The file has fewer than eight bytes.", "Ask for the file again.", "it is empty, or was cut"],
        ByteOrder: ["It begins with neither II nor MM: not a TIFF file.",
            "If it is bare fax data (T.4 or T.6), say so. Otherwise it is no fax: open it with the program that it " +
            "was made for.", "it is no TIFF file"],
        Magic: ["The number after the byte order is not 42: not a TIFF file, or BigTIFF.",
            "Ask for the fax as a TIFF file.", "it is no TIFF file"],
        NoDirectory: ["The header names no page.", "Ask for the file again.", "there is no page in it"],
        MissingField: ["The field with this tag is missing.", "Ask for the file again.",
            "a part of its description is missing"],
        MissingField273: ["No strips are named: usually a page of tiles.", "Open it with a picture viewer.",
            "it is a picture of another kind"],
        Unsupported: ["A field has a value that no fax page has.", "Open it with a picture viewer.",
            "it is a picture of another kind"],
        Unsupported259: ["Another compression than 3 (MH, MR) or 4 (MMR).", "Open it with a picture viewer.",
            "it is a picture of another kind"],
        BadField: ["The field is neither SHORT nor LONG, has too few values in the file, or is a RowsPerStrip of 0.",
            "Ask for the file again.", "its description is damaged"],
        OutOfLimits: ["The page is empty, wider than 65,535 pels or longer than 1,000,000 rows.",
            TEXTS_OF_PAGE, "it is empty, or larger than any fax page"],
        DirectoryOutside: ["A page's directory lies outside the file: usually the end of the file is missing.",
            "Fetch the file again, and compare its length. What is there can be saved.",
            "the end of the file is missing"],
        StripOutside: ["A strip lies outside the file: usually the end of the file is missing.",
            "Fetch the file again, and compare its length. What is there can be saved.",
            "the end of the file is missing"],
        DirectoryLoop: ["A directory is followed by itself or an earlier one. All pages come before the fault.",
            "Nothing is missing: save the fax anew if another program does not open it.",
            "its list of pages leads back to its beginning"],
        DataEnds: ["A strip ends before its rows do: the sender was cut off, or the page is shorter than it says.",
            TEXTS_OF_NOISE, "the data end too early"],
        EndMarker: ["Eleven zeros, as in an end mark, stand in place of a row: the page may be shorter than it says.",
            TEXTS_OF_NOISE, "the data end too early"],
        BadCode: ["The next bits are neither a code nor the beginning of one.", TEXTS_OF_NOISE, "the data are damaged"],
        RunTooLong: ["A run passes the width of the page.", TEXTS_OF_NOISE, "the data are damaged"],
        OutOfRow: ["A vertical mode leads out of the row, or back.", TEXTS_OF_NOISE, "the data are damaged"],
        MissingEol: ["No EOL stands before the row, in MH or MR.", TEXTS_OF_NOISE, "the data are damaged"],
        Extension: ["An extension of T.4 or T.6, such as uncompressed mode, which is not read.", TEXTS_OF_NOISE,
            "the data are damaged"],
        BadHeader: ["The image does not begin as raw PBM does (P4, width, height).",
            "Ask for the file again, or open it with a picture viewer.", "it does not begin as a picture does"],
        ShortRaster: ["Its rows are not all there.", "It was cut. Ask for it again.", "its end is missing"],
        UnknownInput: ["The input is neither raw PBM nor TIFF.", "It is no fax.", "it is no fax"],
        OutputTooLarge: ["The output would have more than 268,435,456 bytes, or a TIFF file more than 65,535 pages.",
            "Save fewer pages at once.", "it would be too large"],
        Memory: ["Memory was refused.", "Close other files, or other pages of the browser, and open it again.",
            "the browser has no memory left for it"],
        TooManyRows: ["A strip of unknown height has more than 1,000,000 rows.",
            "It is not a fax page, or it is coded in another way.", "it is longer than any fax page"],
    },
    /** The same of notes. */
    notes: {
        NoEndOfBlock: ["A strip of MMR has no mark at its end.", "If another program waits for it: save the fax anew."],
        ReturnToControl: ["A strip of MH or MR ends with six EOLs.",
            "If another program adds an empty row: save the fax anew."],
        DataAfterEnd: ["More than zeros follow the last row.",
            "The page may have more rows than it says: ask the sender."],
        NotT4Choice: ["A row is coded in other codes than T.4 chooses.",
            "If another program refuses it: save the fax anew."],
        EntriesOutOfOrder: ["A directory's tags do not ascend.",
            "If another program does not open it: save the fax anew."],
        BadFaxLines: ["The receiver could not read some rows of the page.",
            "If other rows replace them, only the sender has the page: ask for it again."],
    },
    /** What is noted of a page whose data are cut, though all rows are found. */
    cut: ["A strip lies outside the file, but all rows of the page are found.",
        "If another program does not open the file: fetch it again, or save the fax anew."],
    /** The same of what a later version of the library may find. */
    later: {
        fault: ["A fault of a later version.", "Open it with a later version of this page.",
            "it has a fault that only a later version of this page knows"],
        note: ["A note of a later version.", "Open it with a later version of this page."],
    },
    /** What is no fax that is read here, and what reads it. */
    kinds: {
        pdf: ["a PDF", "A PDF viewer opens it."],
        png: ["a PNG picture", "A picture viewer opens it."],
        jpeg: ["a JPEG picture", "A picture viewer opens it."],
        gif: ["a GIF picture", "A picture viewer opens it."],
        bmp: ["a BMP picture", "A picture viewer opens it."],
        zip: ["a ZIP archive", "Unpack it: the fax may be inside."],
        postScript: ["PostScript", "A PostScript viewer opens it."],
        mail: ["a mail", "The fax may be attached to it: save it from the mail first, and open what you saved."],
        text: ["text", "A text editor opens it."],
        empty: ["an empty file", "Ask for it again."],
        bigTiff: ["a BigTIFF file", "libtiff's tiffcp makes a TIFF file of it, or a picture viewer opens it."],
        tiles: ["a picture in tiles", "libtiff's tiffcp makes strips of it, or a picture viewer opens it."],
        compression: ["a picture in TIFF with another compression ({0})", "A picture viewer opens it."],
        uncompressed: ["a picture in TIFF without compression", "A picture viewer opens it."],
        bits: ["a grey or coloured picture in TIFF", "A picture viewer opens it."],
        colour: ["a coloured picture in TIFF", "A picture viewer opens it."],
        mode: ["a fax in uncompressed mode", "Ask for it without that mode."],
        other: ["a picture in TIFF of another kind (field {0})", "A picture viewer opens it."],
    },
    codings: ["", "MH", "MR", "MMR"],
    units: ["", "", "inch", "cm"],
    keeping: "Files that are open come back when the page is loaded again. Until you close them they are kept in " +
        "this browser's storage, on this computer.",
    files: {
        part: "part of the name",
        tooLarge: "The file has more than 268,435,456 bytes, which is the most that is read.",
        unreadable: "This file cannot be read as a fax.",
        failed: "This file was not read: {0}",
        waits: "Waits for other files.",
        opens: "Is being opened.",
    },
    /** Why something was not done. */
    errors: {
        gone: "the file is gone from its place, or was changed there",
        changed: "the file was changed on the disk",
        memory: "the browser has no memory left for it",
        status: "the library answered with status {0}",
        tooLarge: "page {0} is too large to be saved",
        fileTooLarge: "the file would be too large",
        notWhole: "page {0} cannot be read wholly",
        notWritten: "page {0} was not written as it is",
        more: "more was written than there is",
        notCoded: "page {0} is not coded",
        noPicture: "page {0} is too large for a picture",
        noTurning: "page {0} is too large to be turned",
        clipboard: "the browser does not let it into the clipboard",
        fullScreen: "The browser does not fill the screen with it.",
        other: "the browser does not say why",
    },
    /** Why a file that was opened is not read, or not any more. */
    broken: {
        gone: "the file is gone from its place, or was changed there: open it again.",
        changed: "the file was changed on the disk: open it again once it is whole.",
        memory: "the browser has no memory left for it: close other files, and open it again.",
        policy: "the rules of the server that this page is from (Content-Security-Policy) do not let it work. " +
            "docs/INSTALL.md says which rules do.",
        ended: "what reads it broke down: {0}.",
        later: "It cannot be shown any more: {0} What was read of it before:",
        readAgain: "The file was changed on the disk, and was read again.",
    },
    verdicts: {
        lists: "Looking for pages: {0} so far.",
        reads: "Reading page {0} of {1}: {2} rows so far.",
        left: "You stopped the reading. Of {1} pages, those before page {0} were read.",
        whole: "This fax is whole: {0}, {1}.",
        allThere: "All rows are there: {0}, {1}.",
        /** Of one page, with the number of rows and without, and of many pages. */
        mended: ["The receiver mended {0} of page {1}.",
            "The receiver mended rows of page {1}, but does not say how many.",
            "The receiver mended {0} on {1} pages."],
        receivedBad: ["The receiver left {0} of page {1} that are bad.",
            "The receiver left rows of page {1} that are bad, but does not say how many.",
            "The receiver left {0} on {1} pages that are bad."],
        readable: "Readable. {0} of {1} rows {2} missing{3}.",
        partly: "Readable in part. {0} of {1} rows {2} missing{3}.",
        elsewhere: "Of the other pages {0} of {1} rows {2} missing.",
        is: "is",
        are: "are",
        onPage: ", on page {0}",
        onPages: ", on {0} pages",
        mostOfPage: "Page {0} is missing most of its rows ({1} of {2}).",
        allOfPage: "Page {0} is missing all of its {1} rows.",
        mostOfPages: "Pages {0} are missing most of their rows ({1} of {2}).",
        mostOfMany: "{0} pages, the first of them page {3}, are missing most of their rows ({1} of {2}).",
        refused: "Page {0} cannot be read: {1}.",
        manyRefused: "{0} pages cannot be read; the first is page {1}: {2}.",
        noRows: "no row of it was received",
        cut: "The end of the file is missing, but no row.",
        loop: "The file's list of pages leads back to its beginning: no page is missing, but other programs may not " +
            "open it.",
        chain: "After page {0} nothing more is found: {1}.",
        nothing: "This file cannot be read as a fax: {0}.",
        noPage: "This file cannot be read as a fax: there is no page in it.",
        other: "This is no fax that is read here, but {0}. {1}",
        others: "{0} of {1} are no fax pages that are read here.",
        bareOpen: "The first {0} rows are found; what follows them is missing: {1}. How many rows that is, bare data " +
            "do not say.",
        bareEnds: "the data end at once",
        bareNothing: "No row is found as you said it is coded: {0}. Try another coding, width or bit order.",
        image: "Image {0} of the PBM file is refused.",
    },
    findings: {
        rows: "rows {0} to {1} are missing",
        row: "row {0} is missing",
        between: "{0} rows between {1} and {2} are missing",
        page: "it cannot be read",
        otherPage: "it is no fax page that is read here, but {0}",
        chain: "more pages may follow, but are not found",
        file: "it cannot be read",
        end: "The file",
        cut: "the file ends before it should, but all rows of the page are found",
        places: "{0}: {1}, {2}",
        other: "{0}: {1}",
        details: "Details",
        strip: "strip {0}",
        directory: "Page {0}",
        image: "Image {0}",
        more: "{0} more are not shown.",
        reportGoesOn: "The report goes on: save it as text.",
        fromZero: "Below, pages, rows and strips are numbered from 0, as the program numbers them.",
        /** What no reader sees, by the coding of the page: counted by bench/damage, in README. */
        unseen: {
            1: "A row above those that are missing may be wrong too: of 1,000 pages in MH with one bit turned 28 had " +
                "such a row, and 11 had no fault. No reader sees damage that makes other codes.",
            2: "A row above those that are missing may be wrong too: of 1,000 pages in MR with one bit turned " +
                "165 had such a row, and 169 had no fault. No reader sees damage that makes other codes.",
            3: "A row above those that are missing may be wrong too: of 1,000 pages in MMR with one bit turned " +
                "343 had such a row, and 126 had no fault. No reader sees damage that makes other codes.",
        },
        unchecked: "Notes were not looked for, since this file takes long.",
    },
    pages: {
        label: "Page {0} of {1}: {2}",
        of: "of {0}",
        form: "{0} by {1} dots, {2}, {3}",
        resolution: "{0} by {1} to the {2}",
        noResolution: "no resolution",
        whole: "whole",
        mended: "mended by the receiver",
        slight: "{0} missing",
        part: "{0} missing",
        most: "most is missing",
        refused: "cannot be read",
        other: "no fax page",
        picture: "Picture of page {0}: {1}",
    },
    saving: {
        works: "Making {0}: {1} percent.",
        ready: "{0} was made, read again and compared: it is right.",
        report: "{0} was made.",
        less: "{0} has {1} of {2}, and was read again and compared. The other pages have missing rows, and are left " +
            "out.",
        fewer: "It has {0} of {1}: the other pages cannot be read.",
        pages: "-pages-{0}",
        failed: "{0} was not made: {1}.",
        cancelled: "{0} was not made: it was cancelled.",
        nothing: "No page is whole, so there is nothing to save in this way.",
        grey: "{0} was made, read again and compared: it has all that is found, and missing rows are grey.",
        white: "{0} was made, read again and compared: it has all that is found, and missing rows are white. Nobody " +
            "can tell them from white paper: keep the fax as it came, too.",
        link: "Save {0} again",
        all: "Saving {0} of {1} files: {2}",
        allDone: "{0} of {1} files were saved as PDF.",
    },
    printing: {
        all: "all pages",
        works: "Preparing page {0} of {1} to be printed.",
        ready: "{0} prepared for the printer.",
        refused: "Say pages from 1 to {0}, as 1-3, 5.",
        tooMany: "{0} pages are printed at once at most. Say which, as 1-{0}, or save the fax as PDF, and print that.",
        failed: "It was not printed: {0}.",
        cancelled: "It was not printed: it was cancelled.",
    },
    bare: {
        refused: "Say a width from 1 to 65,535 and a number of rows up to 1,000,000.",
        guessed: "This file has fax data alone, and does not say how they are coded. It is read as {0}, {1} dots " +
            "wide, since most rows are found so. If the picture is wrong, change it under “{2}”.",
        said: "This file has fax data alone. It is read as {0}, {1} dots wide, as you said.",
    },
    /** What a file of the list is like, for who hears it. */
    looks: {
        failed: "cannot be read any more", busy: "is being read", other: "no fax", whole: "whole",
        mended: "mended by the receiver", slight: "readable, rows are missing", damaged: "much is missing",
    },
    /** How many files are like that. */
    counted: {
        failed: "{0} cannot be read any more", busy: "{0} being read", other: "{0} no fax", whole: "{0} whole",
        mended: "{0} mended by the receiver", slight: "{0} readable with missing rows",
        damaged: "{0} with much missing",
    },
    announce: { page: "Page {0}, {1}.", closed: "Closed {0}.", opened: "Opened {0}.",
        noneDamaged: "Nothing is missing of any file.",
        noFolder: "The browser hands out no folder that is dropped here: choose it by Open a folder…" },
    copying: { copied: "Page {0} was copied as a picture.", failed: "Page {0} was not copied: {1}." },
};

/** The languages that there are, by their codes.
 * @type {Map<string, typeof ENGLISH>} */
const LANGUAGES = new Map([["en", ENGLISH]]);

/** What the page says in the language that is chosen. */
let TEXTS = ENGLISH;

/** Puts values into a text: {0} is the first.
 * @param {string} text @param {...(string | number)} values */
function say(text, ...values) {
    return text.replace(/\{(\d)\}/g, (_, at) => {
        const value = values[Number(at)];
        return typeof value === "number" ? value.toLocaleString(TEXTS.locale) : value;
    });
}

/** The name of a file as text: what turns text round, and is not seen, is shown.
 * @param {string} name */
function sayName(name) {
    return name.replace(/[\u0000-\u001f\u007f-\u009f\u061c\u200b-\u200f\u2028-\u202e\u2060-\u2069\ufeff]/g, (letter) =>
        `\u27e8U+${letter.charCodeAt(0).toString(16).toUpperCase().padStart(4, "0")}\u27e9`);
}

/** The number of a page, or of a strip, as people count, from 1; the program and the report count from 0.
 * @param {number} page */
function sayPage(page) {
    return String(page + 1);
}

/** What is said of a fault: what it means, and what to do.
 * @param {string} name @param {number} [tag] @returns {string[]} */
function sayOfFault(name, tag) {
    const faults = /** @type {Record<string, string[]>} */ (TEXTS.faults);
    return faults[`${name}${tag}`] ?? faults[name] ?? TEXTS.later.fault;
}

/** Why something cannot be read, in plain words.
 * @param {string} name @param {number} [tag] @returns {string} */
function sayWhy(name, tag) {
    return sayOfFault(name, tag)[2];
}

/** Whether there are words for a note of this name.
 * @param {string} name */
function isKnownNote(name) {
    return name in TEXTS.notes;
}

/** The same of a note.
 * @param {string} name @returns {string[]} */
function sayOfNote(name) {
    const notes = /** @type {Record<string, string[]>} */ (TEXTS.notes);
    return notes[name] ?? TEXTS.later.note;
}

/** Why something was not done, which is an error of a call, or of the browser.
 * @param {any} error @returns {string} */
function sayError({ text, values = [], kind }) {
    const errors = /** @type {Record<string, string>} */ (TEXTS.errors);
    return say(errors[text] ?? errors[kind] ?? errors.other, ...values);
}

/** What something is that is no fax, and what reads it.
 * @param {{ name: string, value: string }} kind @returns {string[]} */
function sayOfKind({ name, value }) {
    return TEXTS.kinds[/** @type {"other"} */ (name)].map((text) => say(text, value));
}

/** @param {number} count @param {"page" | "row" | "file" | "place"} what */
function sayCount(count, what) {
    const [one, many] = TEXTS.counts[what];
    return `${count.toLocaleString(TEXTS.locale)} ${count === 1 ? one : many}`;
}
