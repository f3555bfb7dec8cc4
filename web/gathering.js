"use strict";

/** The files that are dropped, pasted or chosen, and those of folders among them. */
class Gathering {
    /** How faxes are called: of a folder these are taken. */
    static NAMES = /\.(tiff?|pbm|g3|g4|t4|t6|fax)$/i;

    /** The files of what was dropped; of a folder, with all below it, those that are called as faxes are, by name.
     * A browser that hands out no folder, as some do where the page itself is of the disk, is an error.
     * @param {DataTransfer} dropped @returns {Promise<File[]>} */
    static async dropped(dropped) {
        const files = [...dropped.files];
        // Text may have been dropped along with them. A folder is one of the files too.
        const items = [...dropped.items].filter(({ kind }) => kind === "file");
        const entries = items.map((item) => item.webkitGetAsEntry?.() ?? null);
        const all = await Promise.all(entries.map((entry) => (entry?.isDirectory ? Gathering.below(entry) : null)));
        return files.flatMap((file, at) => {
            const below = all[at];
            return below ? Gathering.ofFolder(below) : file;
        });
    }

    /** @param {FileSystemEntry} entry @returns {Promise<File[]>} */
    static async below(entry) {
        if (entry.isFile) {
            const file = /** @type {FileSystemFileEntry} */ (entry);
            return [await new Promise((resolve, reject) => file.file(resolve, reject))];
        }
        const reader = /** @type {FileSystemDirectoryEntry} */ (entry).createReader();
        /** @type {File[]} */
        const found = [];
        for (;;) {
            // Some are told at a time, and none at the end.
            const entries = await new Promise((/** @type {(it: FileSystemEntry[]) => void} */ resolve, reject) =>
                reader.readEntries(resolve, reject));
            if (entries.length === 0) {
                return found;
            }
            for (const below of entries) {
                found.push(...await Gathering.below(below));
            }
        }
    }

    /** @param {File[]} files */
    static ofFolder(files) {
        return files.filter((file) => Gathering.NAMES.test(file.name)).sort((one, other) =>
            one.name.localeCompare(other.name, "en", { numeric: true }));
    }
}
