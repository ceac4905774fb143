"""The checks of a test: counted, and reported where one fails."""
from __future__ import annotations

import ctypes
import signal
from argparse import ArgumentParser
from collections.abc import Callable, Iterable
from typing import Any, TypeVar

Part = TypeVar("Part", bound=Callable[..., Any])
# how much of a value is shown
MOST = 2000
PR_SET_PDEATHSIG = 1


def dies_with_parent() -> None:
    """For a process that is being started: it ends with the one that started it, however that one ends."""
    ctypes.CDLL(None).prctl(PR_SET_PDEATHSIG, signal.SIGKILL)


def add_words(parser: ArgumentParser) -> None:
    """Lets a test take the names of its parts."""
    parser.add_argument("words", nargs="*", metavar="WORD", help="only the tests whose names have the word")


def named(parts: Iterable[Part], words: list[str]) -> list[Part]:
    """The parts whose names have one of these words; all where there are no words."""
    return [it for it in parts if not words or any(word in it.__name__ for word in words)]


class Checks:
    """What passed, what did not, and what this machine can't run."""

    def __init__(self) -> None:
        self.passed = self.failed = self.skipped = 0

    def check(self, is_so: bool, what: str, came: str = "") -> bool:
        """Counts a check."""
        self.passed, self.failed = self.passed + is_so, self.failed + (not is_so)
        if not is_so:
            print(f"FAIL {what}{came and chr(10)}{came[-MOST:]}", flush=True)
        return is_so

    def same(self, came: object, wanted: object, what: str) -> None:
        """Counts a comparison of two values."""
        shown = f"  wanted: {wanted!r:.{MOST}}\n  came:   {came!r:.{MOST}}"
        self.check(came == wanted, what, shown)

    def compare(self, what: str, wanted: object, came: object) -> None:
        """The same, in the order in which a test is told."""
        self.same(came, wanted, what)

    def skip(self, what: str, why: str) -> None:
        """Counts a check that this machine can't run."""
        self.skipped += 1
        print(f"skipped: {what}: {why}", flush=True)

    def summary(self, name: str) -> str:
        """The last line of a test."""
        skipped = f", {self.skipped} skipped" if self.skipped else ""
        return f"{name}: {self.passed} passed, {self.failed} failed{skipped}"
