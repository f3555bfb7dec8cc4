"""How far a run has come: a bar of tqdm on a terminal, else a line a minute."""

from __future__ import annotations

import importlib
import sys
import time
from typing import Any, Optional

_MINUTE = 60.0
_BLINK = 0.2


class Progress:
    """Says on the error stream how many faxes of so many are done."""

    def __init__(self, total: int) -> None:
        self._total, self._done = total, 0
        self._began = self._said = time.monotonic()
        self._bar: Optional[Any] = None
        if sys.stderr.isatty():
            try:
                self._bar = importlib.import_module("tqdm").tqdm(total=total, unit=" faxes", file=sys.stderr)
            except ImportError:
                pass

    def add(self, count: int) -> None:
        """So many more are done; or none, and time has passed."""
        self._done += count
        if self._bar is not None:
            self._bar.update(count)
        elif time.monotonic() - self._said >= _MINUTE:
            self._said = time.monotonic()
            print(self._line(), file=sys.stderr, flush=True)

    def _line(self) -> str:
        """What is done, how fast, and how long the rest will take."""
        rate = self._done / (time.monotonic() - self._began)
        left = f"{(self._total - self._done) / rate / 60:.0f} minutes left" if self._done else "time left not known"
        return f"{self._done} of {self._total} faxes, {rate:.0f} a second, {left}"

    def close(self) -> None:
        """Leaves the bar as it stands."""
        if self._bar is not None:
            self._bar.close()


class Gathering:
    """Says on a terminal how many names were found so far."""

    def __init__(self) -> None:
        self._count, self._said = 0, 0.0
        self._shows = sys.stderr.isatty()

    def add(self, count: int) -> None:
        """So many more are found."""
        self._count += count
        if self._shows and time.monotonic() - self._said >= _BLINK:
            self._said = time.monotonic()
            print(f"\r{self._count} faxes found", end="", file=sys.stderr, flush=True)

    def close(self) -> None:
        """Ends the line."""
        if self._shows and self._said:
            print(f"\r{self._count} faxes found", file=sys.stderr, flush=True)
