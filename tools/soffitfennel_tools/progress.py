"""How far a long tool is: a line on a terminal, which goes at the end. Nothing is shown in a pipe or a file."""
from __future__ import annotations

import shutil
import sys
import time
from threading import Event, Lock, Thread


class Progress:
    """The line of a tool. It shows what is done now, and the seconds since the begin."""

    def __init__(self, tool: str, what: str):
        self.tool, self.what, self.began = tool, what, time.monotonic()
        self.is_seen, self.ended, self.lock = sys.stderr.isatty(), Event(), Lock()
        self.ticks = Thread(target=self.tick, daemon=True)

    def __enter__(self) -> Progress:
        if self.is_seen:
            self.draw()
            self.ticks.start()
        return self

    def __exit__(self, *_: object) -> None:
        self.ended.set()
        if self.is_seen:
            self.ticks.join()
            print("\r\033[K", end="", file=sys.stderr, flush=True)

    def show(self, what: str) -> None:
        """Shows what is done from now on."""
        self.what = what
        if self.is_seen:
            self.draw()

    def tick(self) -> None:
        """Shows each second that goes by."""
        while not self.ended.wait(1):
            self.draw()

    def draw(self) -> None:
        """Writes the line in place of the one before."""
        # (within the lock, so that no line is drawn behind a later one)
        with self.lock:
            text = f"{self.tool}: {self.what}, {time.monotonic() - self.began:.0f} s .."
            print(f"\r\033[K{text[: shutil.get_terminal_size().columns - 1]}", end="", file=sys.stderr, flush=True)
