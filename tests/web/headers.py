"""The page from a server with rules of its own: those that INSTALL names let it work, and others are said to be what
keeps it from working."""

from __future__ import annotations

import http.server
import os
import threading
from typing import Any, Generator

from tests import TOP, Claim
from tests.convert.files import get
from tests.finding import found
from tests.web.browser import Browser

SAMPLE = f"{TOP}/samples/three-pages.tif"
WHOLE = "Readable in part. 1 of 6 rows is missing, on page 3."
REFUSED = ("This file was not read: the rules of the server that this page is from (Content-Security-Policy) do not "
           "let it work. docs/INSTALL.md says which rules do.")
# Rules of a server that break it.
BREAKING = ["default-src 'self'", "require-trusted-types-for 'script'", "script-src 'self'; worker-src blob:",
            "script-src 'self' 'wasm-unsafe-eval'; worker-src 'self'"]


class Served(http.server.ThreadingHTTPServer):
    """The folder web/, or another, on a port of this machine, with headers, and what was asked for."""

    def __init__(self, headers: dict[str, str], folder: str = os.path.join(TOP, "web")) -> None:
        asked: list[str] = []
        self.asked = asked

        class Handler(http.server.SimpleHTTPRequestHandler):
            def __init__(self, *words: Any) -> None:
                super().__init__(*words, directory=folder)

            def end_headers(self) -> None:
                for name, value in headers.items():
                    self.send_header(name, value)
                super().end_headers()

            def log_message(self, *words: object) -> None:
                asked.append(self.path)

        super().__init__(("127.0.0.1", 0), Handler)
        threading.Thread(target=self.serve_forever, daemon=True).start()

    @property
    def address(self) -> str:
        return f"http://127.0.0.1:{self.server_port}/index.html"


def opened(browser: Browser, headers: dict[str, str]) -> str:
    """What the page says of a fax, once it comes from a server with these headers."""
    server = Served(headers)
    browser.go(server.address)
    browser.choose("#choose", SAMPLE)
    browser.until("""app.fax && !app.fax.isBusy() &&
        document.getElementById("verdict").textContent === app.fax.verdict()""")
    said: str = browser.run("app.fax.verdict()")
    server.shutdown()
    server.server_close()
    return said


def named() -> dict[str, str]:
    """The headers that INSTALL names, in its block of them."""
    block = found(r"```http\n(.*?)```", get(f"{TOP}/docs/INSTALL.md").decode(), 16)[1]
    return dict(line.split(": ", 1) for line in block.splitlines())


def headers(browser: Browser, _program: str, _room: str) -> Generator[Claim, None, None]:
    """It works with no header, and with all that INSTALL names; and says what breaks it."""
    yield "with no header", opened(browser, {}), WHOLE
    known = named()
    yield "INSTALL names a policy", "Content-Security-Policy" in known, True
    yield "with those of INSTALL", opened(browser, known), WHOLE
    browser.until('document.querySelector(".current canvas[data-drawn]")')
    for policy in BREAKING:
        said = opened(browser, {"Content-Security-Policy": policy})
        yield f"with {policy}: {said}", said.startswith(REFUSED), True
