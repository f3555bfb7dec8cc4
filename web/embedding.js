"use strict";

/**
 * Opens files for a page that embeds this one, as a web client of a fax server does:
 *
 *     frame.contentWindow.postMessage({ faxpages: "open", files: [{ name: "fax.tif", data }] }, origin)
 *
 * `data` are an ArrayBuffer, a view of one, or a Blob, and no address: nothing is asked of the network. Pages of the
 * same origin may do so, and those of the origins that `faxpages-embedders` names in index.html. What others send is
 * dropped. They are sent { faxpages: "ready" } once the page listens, and for what they send
 * { faxpages: "opened", names } or { faxpages: "refused", why }.
 */
class Embedding {
    /** So many files are opened at once. */
    static MOST = 1000;
    /** The name of the element that has the origins, with blanks between them. */
    static NAME = "faxpages-embedders";

    /** @param {(files: File[]) => void} open */
    constructor(open) {
        this.open = open;
        if (parent !== window) {
            const origins = Embedding.origins();
            addEventListener("message", (event) => {
                if (event.source === parent && origins.includes(event.origin) && event.data?.faxpages === "open") {
                    parent.postMessage({ faxpages: "opened", ...this.take(event.data.files) }, event.origin);
                }
            });
            origins.forEach((origin) => parent.postMessage({ faxpages: "ready" }, origin));
        }
    }

    /** The origins that may send files; a page of the disk has none. */
    static origins() {
        const named = document.querySelector(`meta[name="${Embedding.NAME}"]`)?.getAttribute("content") ?? "";
        return [location.origin, ...named.split(/\s+/)].filter((it) => it !== "" && it !== "null" && it !== "*");
    }

    /** Opens what was sent, all of it or nothing; what is answered.
     * @param {any} sent */
    take(sent) {
        const isList = Array.isArray(sent) && sent.length > 0 && sent.length <= Embedding.MOST;
        const files = isList ? sent.map(Embedding.file) : [];
        if (!isList || files.includes(null)) {
            return { faxpages: "refused", why: `files are a list of 1 to ${Embedding.MOST} { name, data }` };
        }
        this.open(/** @type {File[]} */ (files));
        return { names: files.map((file) => /** @type {File} */ (file).name) };
    }

    /** A file of a name and its bytes, if it is one. Sent again it is the same, unless another time is said.
     * @param {any} sent @returns {File | null} */
    static file(sent) {
        const { name, data, time } = Object(sent);
        const isData = data instanceof Blob || data instanceof ArrayBuffer || ArrayBuffer.isView(data);
        if (typeof name !== "string" || name === "" || !isData) {
            return null;
        }
        return new File([/** @type {BlobPart} */ (data)], name, { lastModified: Number.isFinite(time) ? time : 0 });
    }
}
