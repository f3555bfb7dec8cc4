"""What the tests of the Python module share: faxpages itself, claims that are counted, and faxes."""

from __future__ import annotations

from typing import Callable, Iterable, TypeVar

import tests  # noqa: F401  which says where it is

import faxpages

Item = TypeVar("Item")
# A page of 64 by 8 pels, as raw PBM.
SMALL = b"P4\n64 8\n" + bytes([0x0F, 0xF0, 0, 0, 0xFF, 0, 0xFF, 0]) * 8


def until_fault(items: Iterable[Item]) -> tuple[list[Item], faxpages.Fault | None]:
    """All items, and the fault that ends them, or None."""
    found: list[Item] = []
    try:
        for item in items:
            found.append(item)
    except faxpages.Fault as fault:
        return found, fault
    return found, None


class Claims:
    """How many claims were true; each that was not is printed."""

    def __init__(self) -> None:
        self.passed, self.failed = 0, 0

    def see(self, name: str, fine: object) -> None:
        """Counts a claim."""
        self.passed, self.failed = self.passed + bool(fine), self.failed + (not fine)
        if not fine:
            print(f"FAILED: {name}", flush=True)

    def raises(self, name: str, kind: type[BaseException], work: Callable[[], object]) -> None:
        """Claims that the work raises just this kind."""
        try:
            work()
            self.see(f"{name}: nothing is raised", False)
        except BaseException as raised:  # pylint: disable=broad-except
            self.see(f"{name}: {raised!r} is raised", type(raised) is kind)

    def ends(self, name: str) -> int:
        """Says the counts, and answers the status of the test."""
        print(f"{name}: {self.passed} passed, {self.failed} failed")
        return 1 if self.failed else 0
