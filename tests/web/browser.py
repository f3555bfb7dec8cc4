"""What a browser can do for the tests, whichever it is. Nothing waits for a fixed time: an event, an answer or a state
of the page is waited for, at most some minutes."""

from __future__ import annotations

import base64
import json
import os
import shutil
import signal
import subprocess
import time
from typing import Any

# Seconds, on a machine that has much else to do.
MOST = 900
# A function in the page: the width, the height and the pels of a picture.
PELS = """async (picture) => {
    const image = await createImageBitmap(picture);
    const draw = new OffscreenCanvas(image.width, image.height).getContext("2d");
    draw.drawImage(image, 0, 0);
    const { data } = draw.getImageData(0, 0, image.width, image.height);
    let text = "";
    for (let at = 0; at < data.length; at += 4) {
        text += data[at] === 0 ? "\\x01" : data[at] === 255 ? "\\0" : "\\x02";
    }
    return [image.width, image.height, btoa(text)];
}"""


class Failed(Exception):
    """The browser refused a call, or something did not come."""


def awaited(script: str, most: int = MOST) -> str:
    """An expression that waits until another is true in the page: the page looks at each of its pictures and timers."""
    return f"""new Promise((resolve, reject) => {{
        const end = Date.now() + {1000 * most};
        const look = () => {{
            let value;
            try {{ value = ({script}); }} catch (error) {{ value = null; }}
            if (value) resolve(value);
            else if (Date.now() > end) reject(new Error("it did not come"));
            else setTimeout(look, 10);
        }};
        look();
    }})"""


class Browser:
    """One browser with one page."""

    # So many bytes of memory that nothing uses any more it may keep for a while.
    LATE = 128 * 2 ** 20

    def run(self, script: str) -> Any:
        """The value of an expression in the page; of a promise, what it gives."""
        raise NotImplementedError

    def go(self, address: str) -> None:
        """Opens a page, and waits until it is there."""
        raise NotImplementedError

    def choose(self, selector: str, *files: str) -> None:
        """Chooses files in an input of the page."""
        raise NotImplementedError

    def choose_folder(self, selector: str, folder: str) -> None:
        """Chooses a folder in an input of the page."""
        self.choose(selector, folder)

    def drop(self, *files: str) -> None:
        """Drops files onto the page."""
        raise NotImplementedError

    def drop_folder(self, folder: str) -> None:
        """Drops a folder onto the page."""
        self.drop(folder)

    def to_front(self) -> None:
        """Gives the page the focus, and the clipboard."""

    def copied(self) -> tuple[int, int, bytes]:
        """The picture that was copied: its width, its height, and for each pel 1 for black, 0 for white, else 2."""
        raise NotImplementedError

    def press(self, key: str, code: str = "", number: int = 0, shift: bool = False) -> None:
        """Presses a key and lets it go."""
        raise NotImplementedError

    def drag(self, x: int, y: int, to_x: int, to_y: int) -> None:
        """Drags by the mouse from one place to another, by one between."""
        raise NotImplementedError

    def click(self, selector: str) -> None:
        """Clicks by the mouse on what is seen of an element."""
        x, y = self.run(f"""(() => {{
            const box = document.querySelector({json.dumps(selector)}).getBoundingClientRect();
            return [Math.round(box.left + box.width / 2), Math.round(box.top + box.height / 2)];
        }})()""")
        self.drag(x, y, x, y)

    def resize(self, width: int, height: int) -> None:
        """Gives the page a window of another size."""
        raise NotImplementedError

    def picture(self, file: str) -> None:
        """Writes what is seen into a file, as PNG."""
        raise NotImplementedError

    def printed(self, width: float = 8.5, height: float = 11) -> bytes:
        """What the browser prints on sheets of so many inches, as PDF."""
        raise NotImplementedError

    def memory(self, name: str = "VmRSS") -> int:
        """The bytes of memory of the page's process, or of the largest of them; by a name of /proc."""
        raise NotImplementedError

    def collect(self) -> None:
        """Has the browser give back the memory that nothing uses any more, if it can be told to."""

    def close(self) -> None:
        raise NotImplementedError

    def until(self, script: str, most: int = MOST) -> Any:
        """Waits until an expression is true in the page, and answers its value."""
        return self.run(awaited(script, most))

    def is_there(self, address: str) -> None:
        """Waits until a page is there."""
        self.until(f"location.href === {json.dumps(address)} && document.readyState === 'complete' "
                   "&& typeof app !== 'undefined'")

    def pels_of(self, picture: str) -> tuple[int, int, bytes]:
        """The width, the height and the pels of a picture, which is an expression in the page."""
        width, height, pels = self.run(f"(async () => ({PELS})(await {picture}))()")
        return width, height, base64.b64decode(pels)

    @staticmethod
    def ended(process: subprocess.Popen[bytes], folder: str) -> None:
        """Waits until a browser has ended, and takes away what it kept."""
        try:
            process.wait(60)
        except subprocess.TimeoutExpired:
            os.killpg(process.pid, signal.SIGKILL)
            process.wait()
        for _ in range(50):
            shutil.rmtree(folder, ignore_errors=True)
            if not os.path.exists(folder):
                break
            time.sleep(0.1)

    def __enter__(self) -> Any:
        return self

    def __exit__(self, *_: None) -> None:
        self.close()


def memory_of(process: int, name: str) -> int:
    """What /proc says of the memory of a process, in bytes."""
    with open(f"/proc/{process}/status", encoding="ascii") as status:
        return max(1024 * int(line.split()[1]) for line in status if line.startswith(f"{name}:"))
