"""Firefox with a window, on a screen of Xvfb: without one it has no clipboard but for texts. What the protocol has no way
to, the choice of a folder, is done in the parts of the browser itself. And Chromium with a window, which without one
prints no PDF out of a frame."""

from __future__ import annotations

import json
import os
import shutil
import subprocess
import tempfile
import time

from tests.convert.files import get
from tests.web.browser import MOST, Failed, awaited
from tests.web.chromium import Chromium
from tests.web.firefox import CONTROL, Firefox

# A function in the browser: in place of the dialog by which people choose a folder, one that is told is chosen. What
# comes after that dialog is the browser's own.
PICKS = """(path) => {
    const folder = Cc["@mozilla.org/file/local;1"].createInstance(Ci.nsIFile);
    folder.initWithPath(path);
    const picker = () => ({
        QueryInterface: ChromeUtils.generateQI(["nsIFilePicker"]),
        init(context, title, mode) { this.mode = mode; },
        appendFilter() {}, appendFilters() {}, appendRawFilter() {},
        open(callback) {
            const { modeGetFolder, returnOK, returnCancel } = Ci.nsIFilePicker;
            Services.tm.dispatchToMainThread(() => callback.done(this.mode === modeGetFolder ? returnOK : returnCancel));
        },
        get file() { return folder; },
        get fileURL() { return Services.io.newFileURI(folder); },
        get files() { return [folder][Symbol.iterator](); },
        addToRecentDocs: false, capture: 0, defaultExtension: "", defaultString: "", displayDirectory: null,
        displaySpecialDirectory: "", filterIndex: 0, mode: 0, okButtonLabel: "",
    });
    Components.manager.QueryInterface(Ci.nsIComponentRegistrar).registerFactory(Services.uuid.generateUUID(), "",
        "@mozilla.org/filepicker;1", { createInstance: (iid) => picker().QueryInterface(iid) });
}"""
# Says yes where the browser asks whether all files of a folder are meant, and answers the question.
AGREES = """(() => {
    const [asked] = gBrowser.getTabDialogBox(gBrowser.selectedBrowser).getTabDialogManager()._dialogs;
    const said = asked?._frame.contentDocument;
    const button = said?.getElementById("commonDialog")?.getButton("accept");
    if (!button || button.disabled) return "";
    const text = said.getElementById("infoBody").textContent;
    button.click();
    return text;
})()"""
# A function in the browser, run beside the page: puts a folder into an input as if it had been dropped there.
CARRIES = """const input = content.document.getElementById("carried");
    input.mozSetDndFilesAndDirectories([new content.Directory(%s)]);"""


class Screen:
    """A screen of Xvfb, by its number."""

    def __init__(self) -> None:
        mine, its = os.pipe()
        self._process = subprocess.Popen(
            ["Xvfb", "-displayfd", str(its), "-screen", "0", "1600x1200x24", "-nolisten", "tcp"], pass_fds=(its,),
            stdin=subprocess.DEVNULL, stdout=subprocess.DEVNULL, stderr=subprocess.DEVNULL)
        os.close(its)
        with os.fdopen(mine) as told:
            number = told.readline().strip()
        if not number:
            raise Failed("Xvfb does not start")
        self.name = f":{number}"

    def close(self) -> None:
        self._process.terminate()
        self._process.wait()


class Printer(Chromium):
    """One Chromium in a window, which writes what it is asked to print as PDF, without a dialog."""

    WORDS = [*(word for word in Chromium.WORDS if not word.startswith("--headless")), "--kiosk-printing"]

    def __init__(self, size: tuple[int, int] = (1280, 900)) -> None:
        self._screen, self._written = Screen(), tempfile.mkdtemp()
        self.environment = {"DISPLAY": self._screen.name}
        super().__init__(size)

    def prepare(self, folder: str) -> None:
        """What its settings say, before it starts: what is printed goes into a file."""
        place = {"id": "Save as PDF", "origin": "local", "account": ""}
        state = {"version": 2, "selectedDestinationId": place["id"], "recentDestinations": [place]}
        os.makedirs(f"{folder}/Default")
        with open(f"{folder}/Default/Preferences", "w", encoding="ascii") as file:
            json.dump({"printing": {"print_preview_sticky_settings": {"appState": json.dumps(state)}},
                       "savefile": {"default_directory": self._written}}, file)

    def paper(self) -> bytes:
        """What it has printed, once it is there, as PDF."""
        end = time.monotonic() + MOST
        while time.monotonic() < end:
            names = [f"{self._written}/{name}" for name in os.listdir(self._written) if name.endswith(".pdf")]
            data = get(names[0]) if names else b""
            if data.rstrip().endswith(b"%%EOF"):
                os.unlink(names[0])
                return data
            time.sleep(0.05)
        raise Failed("nothing was printed")

    def close(self) -> None:
        super().close()
        self._screen.close()
        shutil.rmtree(self._written, ignore_errors=True)


class OnScreen(Firefox):
    """One Firefox in a window that has the focus."""

    WORDS = ["--remote-allow-system-access"]

    def __init__(self, size: tuple[int, int] = (1280, 900)) -> None:
        self._screen = Screen()
        super().__init__(size, DISPLAY=self._screen.name)
        # The first window of a browser that is told what to do has no focus.
        self._page = self.call("browsingContext.create", type="window")["context"]
        self.call("browsingContext.activate", context=self._page)
        self.resize(*size)
        self._browser: str = self.call("browsingContext.getTree", **{"moz:scope": "chrome"})["contexts"][-1]["context"]

    def choose_folder(self, selector: str, folder: str) -> None:
        self.run_in(self._browser, f"({PICKS})({json.dumps(folder)})")
        self.click(f'[for="{selector[1:]}"]')
        asked = self.run_in(self._browser, awaited(AGREES))
        if f"“{os.path.basename(folder)}”" not in asked:
            raise Failed(f"the browser asks something else: {asked}")

    def drop_folder(self, folder: str) -> None:
        """A script can make an event that carries files, but none that carries a folder: the page is handed what its
        drop would have, with the browser's own folder in it. It was chosen before, and so may be read."""
        self.run("""document.body.append(Object.assign(document.createElement("input"), { type: "file", id: "carried" }))""")
        script = f"data:application/javascript,{CARRIES % json.dumps(folder)}"
        self.run_in(self._browser, f"gBrowser.selectedBrowser.messageManager.loadFrameScript({json.dumps(script)}, false)")
        self.until("""document.getElementById("carried").webkitEntries.length""")
        self.run("""(() => {
            const input = document.getElementById("carried");
            const items = [...input.webkitEntries].map((entry) => ({ kind: "file", webkitGetAsEntry: () => entry }));
            input.remove();
            return Gathering.dropped({ files: items, items }).then((files) => app.open(files));
        })()""")

    def copied(self) -> tuple[int, int, bytes]:
        """What is pasted by the keys is the picture, as a file."""
        count = self.run("app.faxes.length")
        self.press_all([CONTROL, "v"])
        self.until(f"app.faxes.length > {count} && app.fax === app.faxes.at(-1)")
        told = self.pels_of("app.fax.file")
        self.run("app.close()")
        return told

    def close(self) -> None:
        super().close()
        self._screen.close()
