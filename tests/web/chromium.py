"""Chromium without a window, over its own protocol by two pipes: nothing listens on a port."""

from __future__ import annotations

import base64
import json
import os
import subprocess
import tempfile
import threading
from typing import Any, Callable

from tests.web.browser import MOST, Browser, Failed, memory_of

WORDS = [
    "--headless=new", "--remote-debugging-pipe", "--disable-gpu", "--no-first-run", "--disable-dev-shm-usage",
    "--disable-extensions", "--disable-background-networking", "--disable-component-update", "--disable-sync",
    "--disable-default-apps", "--no-default-browser-check", "--mute-audio", "--hide-scrollbars",
    "--password-store=basic", "--use-mock-keychain", "--force-device-scale-factor=1",
]


class Chromium(Browser):
    """One Chromium with one page."""

    WORDS = WORDS
    # More of its environment.
    environment: dict[str, str] = {}

    def prepare(self, folder: str) -> None:
        """Puts into the folder of its settings what it is to find there."""

    def __init__(self, size: tuple[int, int] = (1280, 900)) -> None:
        for left in (2, 1, 0):
            self._start(size)
            try:
                self._attach(size)
                return
            except (Failed, OSError) as error:
                # On a machine that has little left a browser may end as it starts.
                with open(f"{self._folder}/said", encoding="utf-8", errors="replace") as said:
                    why = said.read()[-2000:]
                self.close()
                if not left:
                    raise Failed(f"chromium does not start: {error}: {why}") from error

    def _start(self, size: tuple[int, int]) -> None:
        """Starts the browser, with a pipe to it and one from it."""
        self._folder = tempfile.mkdtemp()
        self.prepare(self._folder)
        to_it, mine = os.pipe()
        mine_too, from_it = os.pipe()
        no_sandbox = ["--no-sandbox"] if os.getuid() == 0 else []
        with open(f"{self._folder}/said", "wb") as said:
            self._process = subprocess.Popen(
                ["bash", "-c", f'exec "$@" 3<&{to_it} 4>&{from_it}', "bash", "chromium", *self.WORDS, *no_sandbox,
                 f"--user-data-dir={self._folder}", f"--window-size={size[0]},{size[1]}", "about:blank"],
                pass_fds=(to_it, from_it), stdin=subprocess.DEVNULL, stdout=subprocess.DEVNULL, stderr=said,
                start_new_session=True, env=dict(os.environ, **self.environment))
        os.close(to_it)
        os.close(from_it)
        self._to = mine
        self._number = 0
        self._answers: dict[int | None, Any] = {}
        self._session: str | None = None
        self._came = threading.Condition()
        self.events: list[Any] = []
        threading.Thread(target=self._read, args=(mine_too, self._answers), daemon=True).start()

    def _attach(self, size: tuple[int, int]) -> None:
        """Takes a page of the browser's."""
        target = self.call("Target.createTarget", url="about:blank")["targetId"]
        self._session = self.call("Target.attachToTarget", targetId=target, flatten=True)["sessionId"]
        for domain in ("Page", "Runtime", "Network", "Log", "DOM"):
            self.call(f"{domain}.enable")
        # What is saved would wait for somebody to say where.
        session, self._session = self._session, None
        self.call("Browser.setDownloadBehavior", behavior="deny")
        self._session = session
        self.resize(*size)

    def resize(self, width: int, height: int) -> None:
        """Gives the page a window of another size."""
        self.call("Emulation.setDeviceMetricsOverride", width=width, height=height, deviceScaleFactor=1, mobile=False)

    def _read(self, said: int, answers: dict[int | None, Any]) -> None:
        """Takes in what the browser says, until it ends."""
        left = b""
        while True:
            came = os.read(said, 1 << 20)
            *messages, left = (left + came).split(b"\0")
            with self._came:
                for message in map(json.loads, messages):
                    if "id" in message:
                        answers[message["id"]] = message
                    else:
                        self.events.append(message)
                if not came:
                    answers[None] = {}
                self._came.notify_all()
            if not came:
                os.close(said)
                return

    def call(self, method: str, **words: object) -> Any:
        """Calls a method of the protocol, and answers its result."""
        self._number += 1
        number = self._number
        message = {"id": number, "method": method, "params": words}
        if self._session:
            message["sessionId"] = self._session
        data = json.dumps(message).encode() + b"\0"
        while data:
            data = data[os.write(self._to, data):]
        with self._came:
            if not self._came.wait_for(lambda: number in self._answers or None in self._answers, MOST):
                raise Failed(f"{method}: no answer")
            answer = self._answers.pop(number, {"error": "the browser has ended"})
        if "error" in answer:
            raise Failed(f"{method}: {answer['error']}")
        return answer["result"]

    def run(self, script: str) -> Any:
        """The value of an expression in the page; of a promise, what it gives."""
        told = self.call("Runtime.evaluate", expression=script, awaitPromise=True, returnByValue=True)
        if "exceptionDetails" in told:
            raise Failed(f"{script}: {told['exceptionDetails'].get('exception', told['exceptionDetails'])}")
        return told["result"].get("value")

    def longest_task(self, does: Callable[[], object]) -> float:
        """The most milliseconds of the processor that a task of the page's own thread took while something was done:
        so long it did not answer. Time in which other programs had the processor is none of it."""
        first = len(self.events)
        self.call("Tracing.start", categories="-*,toplevel,__metadata", transferMode="ReportEvents")
        does()
        self.call("Tracing.end")
        with self._came:
            if not self._came.wait_for(lambda: any(
                    it["method"] == "Tracing.tracingComplete" for it in self.events[first:]), MOST):
                raise Failed("the tasks were not told")
        told = [it for event in self.events[first:] if event["method"] == "Tracing.dataCollected"
                for it in event["params"]["value"]]
        self.events[:] = [it for it in self.events if it["method"] != "Tracing.dataCollected"]
        mine = {(it["pid"], it["tid"]) for it in told if it["name"] == "thread_name" and
                it["args"]["name"] == "CrRendererMain"}
        tasks = [it["tdur"] for it in told if it["name"] == "ThreadControllerImpl::RunTask" and "tdur" in it and
                 (it["pid"], it["tid"]) in mine]
        if not tasks:
            raise Failed("no task was told")
        return float(max(tasks)) / 1000

    def most_memory(self) -> int:
        """The most bytes that a process of the page had at once, so far."""
        return self.memory("VmHWM")

    def memory(self, name: str = "VmRSS") -> int:
        """The bytes of memory of the page's process, or of the largest of them; by a name of /proc."""
        session, self._session = self._session, None
        told = self.call("SystemInfo.getProcessInfo")["processInfo"]
        self._session = session
        return max(memory_of(process["id"], name) for process in told if process["type"] == "renderer")

    def go(self, address: str) -> None:
        self.call("Page.navigate", url=address)
        self.is_there(address)

    def choose(self, selector: str, *files: str) -> None:
        """Chooses files in an input of the page."""
        root = self.call("DOM.getDocument")["root"]["nodeId"]
        node = self.call("DOM.querySelector", nodeId=root, selector=selector)["nodeId"]
        self.call("DOM.setFileInputFiles", nodeId=node, files=[os.path.abspath(file) for file in files])

    def drop(self, *files: str) -> None:
        data = {"items": [], "files": [os.path.abspath(file) for file in files], "dragOperationsMask": 1}
        for kind in ("dragEnter", "dragOver", "drop"):
            self.call("Input.dispatchDragEvent", type=kind, x=600, y=400, data=data)

    def to_front(self) -> None:
        self.call("Browser.grantPermissions", permissions=["clipboardReadWrite", "clipboardSanitizedWrite"])
        self.call("Page.bringToFront")

    def copied(self) -> tuple[int, int, bytes]:
        return self.pels_of('navigator.clipboard.read().then((items) => items[0].getType("image/png"))')

    def press(self, key: str, code: str = "", number: int = 0, shift: bool = False) -> None:
        """Presses a key and lets it go."""
        text = key if len(key) == 1 else ""
        words = {"key": key, "code": code or key, "windowsVirtualKeyCode": number or (ord(key.upper()) if text else 0),
                 "modifiers": 8 if shift else 0}
        self.call("Input.dispatchKeyEvent", type="keyDown", text=text, **words)
        self.call("Input.dispatchKeyEvent", type="keyUp", **words)

    def drag(self, x: int, y: int, to_x: int, to_y: int) -> None:
        for kind, across, down in (("mousePressed", x, y), ("mouseMoved", (x + to_x) // 2, (y + to_y) // 2),
                                   ("mouseMoved", to_x, to_y), ("mouseReleased", to_x, to_y)):
            self.call("Input.dispatchMouseEvent", type=kind, x=across, y=down, button="left", clickCount=1,
                      buttons=int(kind != "mouseReleased"))

    def picture(self, file: str) -> None:
        with open(file, "wb") as out:
            out.write(base64.b64decode(self.call("Page.captureScreenshot", format="png")["data"]))

    def collect(self) -> None:
        self.call("HeapProfiler.collectGarbage")
        self.run("new Promise((resolve) => setTimeout(resolve, 200))")

    def printed(self, width: float = 8.5, height: float = 11) -> bytes:
        return base64.b64decode(self.call(
            "Page.printToPDF", printBackground=True, paperWidth=width, paperHeight=height)["data"])

    def close(self) -> None:
        try:
            self._session = None
            self.call("Browser.close")
        except (Failed, OSError):
            pass
        self.ended(self._process, self._folder)
        os.close(self._to)
