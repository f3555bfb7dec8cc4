"use strict";

/**
 * Prints pages, each on a sheet of its own: as large as it was sent, or smaller where the sheet is, and turned as the
 * sheet lies. Where the browser prints a PDF out of a frame, as Chromium does for a page of a server, a PDF is printed:
 * its pages have their own sizes, and the browser fits them into what the printer reaches of a sheet. Elsewhere pages
 * are printed as pictures, which are there before the browser is asked to print.
 */
class Printing {
    /** So many pages are printed at once as pictures, which are in memory. */
    static MOST = 300;
    /** What the document of a frame is that shows a PDF. */
    static KIND = "application/pdf";
    /** A PDF of one empty page, and how many milliseconds it may take to be shown. */
    static EMPTY = "%PDF-1.4\n1 0 obj<</Type/Catalog/Pages 2 0 R>>endobj 2 0 obj<</Type/Pages/Kids[3 0 R]/Count 1>>" +
        "endobj 3 0 obj<</Type/Page/Parent 2 0 R/MediaBox[0 0 9 9]>>endobj trailer<</Root 1 0 R>>";
    static SOON = 2000;

    /** @param {View} view @param {{ box: HTMLElement, said: HTMLElement, cancel: HTMLElement }} parts
     * @param {(text: string) => void} announce */
    constructor(view, { box, said, cancel }, announce) {
        this.view = view;
        this.box = box;
        this.said = said;
        this.cancelButton = cancel;
        this.announce = announce;
        /** The fax of which pages are prepared now.
         * @type {Fax | null} */
        this.working = null;
        /** What shows the PDF that is printed.
         * @type {HTMLIFrameElement | null} */
        this.frame = null;
        /** Whether the browser prints a PDF out of a frame, once that was asked.
         * @type {Promise<boolean> | null} */
        this.isByPdf = null;
        cancel.addEventListener("click", () => this.working?.life.end());
        addEventListener("beforeprint", () => this.showInSight());
        addEventListener("afterprint", () => this.clear());
    }

    /** @param {string} text */
    tell(text) {
        this.said.textContent = text;
    }

    /** Has the browser print pages of a fax, once they are prepared.
     * @param {Fax} fax @param {number[]} pages */
    async print(fax, pages) {
        const texts = TEXTS.printing;
        if (this.working || pages.length === 0) {
            return;
        }
        this.clear();
        this.working = fax;
        this.cancelButton.hidden = false;
        try {
            this.isByPdf ??= this.canPrintPdf();
            const isByPdf = await this.isByPdf;
            if (!isByPdf && pages.length > Printing.MOST) {
                this.tell(say(texts.tooMany, Printing.MOST));
                this.announce(say(texts.tooMany, Printing.MOST));
                return;
            }
            await (isByPdf ? this.preparePdf(fax, pages) : this.preparePictures(fax, pages));
            this.tell("");
            this.announce(say(texts.ready, sayCount(pages.length, "page")));
            this.ask();
        } catch (error) {
            const isStopped = error instanceof Stopped || error instanceof Closed;
            this.tell(isStopped ? texts.cancelled : say(texts.failed, sayError(error)));
            this.announce(this.said.textContent ?? "");
            this.clear();
        } finally {
            this.working = null;
            this.cancelButton.hidden = true;
        }
    }

    /** @param {Fax} fax @param {number[]} pages */
    async preparePictures(fax, pages) {
        for (const [at, page] of pages.entries()) {
            this.tell(say(TEXTS.printing.works, at + 1, pages.length));
            const words = { kind: "png", pages: [page], coding: 0, turns: [] };
            this.box.append(await Printing.sheet(fax, page, await fax.ask("save", words)));
        }
    }

    /** @param {Fax} fax @param {number[]} pages */
    async preparePdf(fax, pages) {
        const words = { kind: "pdf", pages, coding: 0, turns: pages.map((page) => fax.turnsOf(page)) };
        const tell = (/** @type {number} */ done, /** @type {number} */ all) =>
            this.tell(say(TEXTS.printing.works, Math.min(done + 1, all), all));
        this.tell(say(TEXTS.printing.works, 1, pages.length));
        await this.show(await fax.ask("save", words, tell));
    }

    /** Asks the browser to print what was prepared. */
    ask() {
        (this.frame?.contentWindow ?? window).print();
    }

    /** Shows a PDF in a frame that nobody sees, in place of another one.
     * @param {Blob} pdf */
    async show(pdf) {
        this.clear();
        const frame = document.createElement("iframe");
        frame.className = "printed-pdf";
        frame.tabIndex = -1;
        frame.setAttribute("aria-hidden", "true");
        frame.src = URL.createObjectURL(new Blob([pdf], { type: Printing.KIND }));
        const isThere = new Promise((resolve) => frame.addEventListener("load", resolve));
        this.frame = frame;
        document.body.append(frame);
        await isThere;
    }

    /** Whether the browser shows a PDF in a frame, and may be asked to print it: not for a page of the disk, nor where
     * a server's rules let no frame in. */
    async canPrintPdf() {
        if (!navigator.pdfViewerEnabled || location.protocol === "file:") {
            return false;
        }
        try {
            await Promise.race([this.show(new Blob([Printing.EMPTY])),
                new Promise((resolve) => setTimeout(resolve, Printing.SOON))]);
            return this.frame?.contentDocument?.contentType === Printing.KIND;
        } catch {
            return false;
        } finally {
            this.clear();
        }
    }

    /** A sheet with a page, of its size in inches.
     * @param {Fax} fax @param {number} page @param {Blob} picture */
    static async sheet(fax, page, picture) {
        const form = /** @type {Form} */ (fax.form(page));
        const image = new Image();
        image.src = await Printing.address(picture);
        await image.decode();
        return Printing.dressed(image, form, fax.turnsOf(page));
    }

    /** A picture as an address that holds it, which the page's own policy lets in.
     * @param {Blob} picture @returns {Promise<string>} */
    static address(picture) {
        return new Promise((resolve, reject) => {
            const reader = new FileReader();
            reader.onload = () => resolve(String(reader.result));
            reader.onerror = () => reject(reader.error);
            reader.readAsDataURL(picture);
        });
    }

    /** A picture of a page on a sheet. Where a page is wide and the sheet is high, or the other way round, it is turned
     * by a quarter more.
     * @param {HTMLElement} picture @param {Form} form @param {number} turns */
    static dressed(picture, form, turns) {
        const sheet = document.createElement("div");
        const [across, down] = [Pdf.inches(form, form.width, form.across), Pdf.inches(form, form.rows, form.down)];
        const isOdd = turns % 2 === 1;
        sheet.className = across > down ? "paper-sheet wide" : "paper-sheet";
        sheet.style.setProperty("--across", `${across}in`);
        sheet.style.setProperty("--shape", String(across / down));
        sheet.style.setProperty("--upright", `${90 * (isOdd ? turns - 1 : turns)}deg`);
        sheet.style.setProperty("--turned", `${90 * (isOdd ? turns : turns + 1)}deg`);
        sheet.append(picture);
        return sheet;
    }

    /** Where the browser prints by itself, as by its menu, nothing can be waited for: the page that is in sight is
     * printed as it is drawn. */
    showInSight() {
        const sheet = this.view.sheet;
        if (sheet && this.box.childElementCount === 0) {
            this.box.append(Printing.dressed(sheet.picture(), sheet.form, sheet.turns));
        }
    }

    /** Drops what was prepared. */
    clear() {
        this.box.replaceChildren();
        if (this.frame) {
            URL.revokeObjectURL(this.frame.src);
            this.frame.remove();
            this.frame = null;
        }
    }
}
