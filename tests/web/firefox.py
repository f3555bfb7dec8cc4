"""Firefox without a window, over WebDriver BiDi: a socket of this machine, at a port that it chooses itself."""

from __future__ import annotations

import base64
import json
import os
import re
import socket
import struct
import subprocess
import tempfile
import time
from typing import Any

from tests.web.browser import MOST, Browser, Failed, memory_of

# It asks nothing of anybody, and keeps what it draws as it is.
SETTINGS: dict[str, object] = {
    "app.normandy.enabled": False, "app.update.disabledForTesting": True,
    "browser.safebrowsing.downloads.enabled": False, "browser.safebrowsing.malware.enabled": False,
    "browser.safebrowsing.phishing.enabled": False,
    "browser.shell.checkDefaultBrowser": False, "browser.startup.page": 0, "browser.aboutwelcome.enabled": False,
    "datareporting.policy.dataSubmissionEnabled": False, "extensions.update.enabled": False,
    "layout.css.devPixelsPerPx": "1.0", "network.captive-portal-service.enabled": False,
    "network.connectivity-service.enabled": False, "network.dns.disablePrefetch": True,
    # What is saved is saved: no PDF is opened in a page that hides the one which is tried.
    "browser.download.alwaysOpenPanel": False, "pdfjs.disabled": True, "browser.helperApps.neverAsk.saveToDisk":
        "application/pdf,image/tiff,image/png,image/x-portable-bitmap,text/plain",
    "services.settings.server": "data:,", "toolkit.telemetry.enabled": False, "toolkit.telemetry.server": "data:,",
}
CONTROL = "\ue009"
KEYS = {"Tab": "\ue004", "PageUp": "\ue00e", "PageDown": "\ue00f", "End": "\ue010", "Home": "\ue011",
        "ArrowLeft": "\ue012", "ArrowUp": "\ue013", "ArrowRight": "\ue014", "ArrowDown": "\ue015", "Escape": "\ue00c",
        "Enter": "\ue007", "Shift": "\ue008"}
LISTENS = re.compile(rb"WebDriver BiDi listening on ws://127\.0\.0\.1:(\d+)")
# Seconds until it listens.
STARTS = 120


class Wire:
    """A WebSocket to a port of this machine: texts in both directions."""

    def __init__(self, port: int, path: str) -> None:
        self._socket = socket.create_connection(("127.0.0.1", port), MOST)
        self._left = b""
        key = base64.b64encode(os.urandom(16)).decode()
        self._socket.sendall(f"GET {path} HTTP/1.1\r\nHost: 127.0.0.1:{port}\r\nUpgrade: websocket\r\n"
                             f"Connection: Upgrade\r\nSec-WebSocket-Key: {key}\r\n"
                             "Sec-WebSocket-Version: 13\r\n\r\n".encode())
        while b"\r\n\r\n" not in self._left:
            self._more()
        head, _, self._left = self._left.partition(b"\r\n\r\n")
        if not head.startswith(b"HTTP/1.1 101"):
            raise Failed(f"no WebSocket: {head!r}")

    def _more(self) -> None:
        came = self._socket.recv(1 << 20)
        if not came:
            raise Failed("the browser has ended")
        self._left += came

    def _take(self, count: int) -> bytes:
        while len(self._left) < count:
            self._more()
        taken, self._left = self._left[:count], self._left[count:]
        return taken

    def send(self, data: bytes, kind: int = 1) -> None:
        """Sends a text, or a frame of another kind: each byte is masked by one of four, as a client has to."""
        length, mask = len(data), os.urandom(4)
        masked = bytes(byte ^ mask[at % 4] for at, byte in enumerate(data))
        size = (bytes([0x80 | length]) if length < 126 else b"\xfe" + struct.pack(">H", length) if length < 1 << 16
                else b"\xff" + struct.pack(">Q", length))
        self._socket.sendall(bytes([0x80 | kind]) + size + mask + masked)

    def receive(self) -> bytes:
        """The next text, of however many frames it is."""
        text = b""
        while True:
            head, size = self._take(2)
            length = size & 127
            if length > 125:
                length = int.from_bytes(self._take(2 if length == 126 else 8), "big")
            data = self._take(length)
            if head & 15 == 9:
                self.send(data, 10)
            elif head & 15 in (0, 1):
                text += data
                if head & 0x80:
                    return text

    def close(self) -> None:
        self._socket.close()


class Firefox(Browser):
    """One Firefox with one page."""

    LATE = 512 * 2 ** 20
    WORDS = ["--headless"]

    def __init__(self, size: tuple[int, int] = (1280, 900), **environment: str) -> None:
        self._folder = tempfile.mkdtemp()
        self._number = 0
        with open(f"{self._folder}/user.js", "w", encoding="ascii") as settings:
            for name, value in SETTINGS.items():
                settings.write(f"user_pref({json.dumps(name)}, {json.dumps(value)});\n")
        with open(f"{self._folder}/said", "wb") as said:
            self._process = subprocess.Popen(
                ["firefox-esr", *self.WORDS, "--no-remote", "--profile", self._folder, "--remote-debugging-port", "0"],
                stdin=subprocess.DEVNULL, stdout=said, stderr=said, start_new_session=True,
                env=dict(os.environ, HOME=self._folder, MOZ_CRASHREPORTER_DISABLE="1", **environment))
        self._wire = Wire(self._port(), "/session")
        self.call("session.new", capabilities={})
        self._page: str = self.call("browsingContext.getTree")["contexts"][0]["context"]
        self.resize(*size)

    def _port(self) -> int:
        """The port that it listens on, once it says so."""
        end = time.monotonic() + STARTS
        while time.monotonic() < end and self._process.poll() is None:
            with open(f"{self._folder}/said", "rb") as said:
                listens = LISTENS.search(said.read())
            if listens:
                return int(listens[1])
            time.sleep(0.05)
        raise Failed("firefox does not start")

    def call(self, method: str, **words: object) -> Any:
        """Calls a method of the protocol, and answers its result."""
        self._number += 1
        self._wire.send(json.dumps({"id": self._number, "method": method, "params": words}).encode())
        while True:
            answer = json.loads(self._wire.receive())
            if answer.get("id") == self._number:
                if answer["type"] == "error":
                    raise Failed(f"{method}: {answer['error']}: {answer['message']}")
                return answer["result"]

    def run(self, script: str) -> Any:
        return self.run_in(self._page, script)

    def run_in(self, context: str, script: str) -> Any:
        """The value of an expression in a page, or in a part of the browser."""
        told = self.call("script.evaluate", expression=script, target={"context": context}, awaitPromise=True)
        if told["type"] == "exception":
            raise Failed(f"{script}: {told['exceptionDetails']['text']}")
        return plain(told["result"])

    def go(self, address: str) -> None:
        self.call("browsingContext.navigate", context=self._page, url=address, wait="complete")
        self.is_there(address)

    def choose(self, selector: str, *files: str) -> None:
        told = self.call("browsingContext.locateNodes", context=self._page, locator={"type": "css", "value": selector})
        self.call("input.setFiles", context=self._page, element={"sharedId": told["nodes"][0]["sharedId"]},
                  files=[os.path.abspath(file) for file in files])

    def drop(self, *files: str) -> None:
        # The protocol drops nothing: the page is sent the events, with files of the disk.
        self.run("""(() => {
            const input = Object.assign(document.createElement("input"), { type: "file", multiple: true, id: "carried" });
            document.body.append(input);
        })()""")
        self.choose("#carried", *files)
        self.run("""(() => {
            const input = document.getElementById("carried");
            const dataTransfer = new DataTransfer();
            for (const file of input.files) dataTransfer.items.add(file);
            input.remove();
            for (const kind of ["dragenter", "dragover", "drop"]) {
                document.body.dispatchEvent(new DragEvent(kind, { dataTransfer, bubbles: true, cancelable: true }));
            }
        })()""")

    def press(self, key: str, code: str = "", number: int = 0, shift: bool = False) -> None:
        self.press_all([KEYS["Shift"]] * shift + [KEYS.get(key, key)])

    def press_all(self, keys: list[str]) -> None:
        """Presses keys one after another, and lets them go."""
        actions = [{"type": "keyDown", "value": it} for it in keys] + [
            {"type": "keyUp", "value": it} for it in reversed(keys)]
        self.call("input.performActions", context=self._page, actions=[
            {"type": "key", "id": "keyboard", "actions": actions}])

    def drag(self, x: int, y: int, to_x: int, to_y: int) -> None:
        moves = [{"type": "pointerMove", "x": across, "y": down} for across, down in (
            (x, y), ((x + to_x) // 2, (y + to_y) // 2), (to_x, to_y))]
        self.call("input.performActions", context=self._page, actions=[
            {"type": "pointer", "id": "mouse", "actions": [
                moves[0], {"type": "pointerDown", "button": 0}, *moves[1:], {"type": "pointerUp", "button": 0}]}])

    def resize(self, width: int, height: int) -> None:
        self.call("browsingContext.setViewport", context=self._page, viewport={"width": width, "height": height})

    def picture(self, file: str) -> None:
        with open(file, "wb") as out:
            out.write(base64.b64decode(self.call("browsingContext.captureScreenshot", context=self._page)["data"]))

    def printed(self, width: float = 8.5, height: float = 11) -> bytes:
        # Sizes are in cm. The margins are those of the page, which has none.
        told = self.call("browsingContext.print", context=self._page, background=True,
                         page={"width": 2.54 * width, "height": 2.54 * height},
                         margin={"top": 0, "bottom": 0, "left": 0, "right": 0})
        return base64.b64decode(told["data"])

    def memory(self, name: str = "VmRSS") -> int:
        # All processes of the browser are of one session, and those that have pages are called so.
        most = 0
        for process in (int(it) for it in os.listdir("/proc") if it.isdigit()):
            try:
                with open(f"/proc/{process}/cmdline", "rb") as words:
                    if os.getsid(process) == self._process.pid and words.read().endswith(b"tab\0"):
                        most = max(most, memory_of(process, name))
            except (OSError, ValueError):
                # It has ended meanwhile.
                continue
        return most

    def close(self) -> None:
        try:
            self.call("browser.close")
        except (Failed, OSError):
            pass
        self._wire.close()
        self.ended(self._process, self._folder)


def plain(value: Any) -> Any:
    """A value as the protocol tells it, as one of Python."""
    kind, told = value["type"], value.get("value")
    if kind == "array":
        return [plain(it) for it in told or []]
    if kind == "object":
        return {name: plain(it) for name, it in told or []}
    return told if kind in ("string", "number", "boolean") else None
