// For a page: what the package of web/npm says of a file, which is handed in as text; the library is the file beside the script.
import { Faxpages } from "faxpages";
import { told } from "./said.mjs";

globalThis.app = {
    said: async (text) => told(
        await Faxpages.load(), Uint8Array.from(atob(text), (letter) => letter.charCodeAt(0))),
};
