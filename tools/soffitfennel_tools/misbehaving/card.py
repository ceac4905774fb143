"""The card of the bench behind an end of T=1 that misbehaves."""
from __future__ import annotations

import subprocess
import sys
from collections.abc import Iterable

from ..outputs import show
from .faults import FAULTS, Moment

# a reader's own requests are answered as they are: the begin of a session, not an answer
TO_REQUESTS = (0xE0, 0xE1)


class Ended(Exception):
    """The card's program ended."""


class BadCard:
    """A card whose fault comes at one answer block, or at each."""

    def __init__(self, words: list[str], fault: str | None, place: int):
        self.fault, self.place = FAULTS[fault] if fault else None, place
        self.process = subprocess.Popen(words, stdin=subprocess.PIPE, stdout=subprocess.PIPE, text=True, bufsize=1)
        self.blocks, self.first, self.last, self.pending = 0, b"", b"", b""

    def order(self, line: str) -> None:
        """Gives the program a line that prints nothing."""
        assert self.process.stdin
        self.process.stdin.write(f"{line}\n")
        self.process.stdin.flush()

    def ask(self, line: str) -> str:
        """What the program prints of a line."""
        assert self.process.stdout
        self.order(line)
        answer = self.process.stdout.readline().rstrip("\n")
        if not answer:
            raise Ended("the card's program ended")
        return answer

    def block(self, sent: bytes) -> bytes | None:
        """The card's block; None where it has none."""
        if self.pending:
            # (the reader answers a request: the right block comes now)
            right, self.pending = self.pending, b""
            return right
        answer = self.ask(f"block {sent.hex().upper()}")
        if not answer.startswith("< "):
            return None
        right = bytes.fromhex(answer[2:])
        return right if right[1] in TO_REQUESTS else self.counted(sent, right)

    def counted(self, sent: bytes, right: bytes) -> bytes:
        """The right block, or in its turn a spoiled one."""
        self.blocks += 1
        came = right
        if self.fault and self.place in (0, self.blocks):
            came = self.fault.spoil(Moment(sent, right, self.last or None, self.first or None))
            self.pending = right if self.fault.is_request else b""
        self.last, self.first = right, self.first or right
        return came

    def answer(self, line: str) -> str | None:
        """What a line of the bench's script prints, spoiled."""
        word = line.partition(" ")[0]
        if word == "block":
            came = self.block(bytes.fromhex(line[6:]))
            return "mute" if came is None else f"< {came.hex().upper()}"
        if word in ("on", "free", "apdu"):
            return self.ask(line)
        self.order(line)
        return None

    def play(self, lines: Iterable[str]) -> None:
        """Plays the card for a reader's end, line by line."""
        for line in lines:
            printed = self.answer(line.rstrip("\n"))
            if printed is not None:
                show("badcard", f"{printed}\n")

    def end(self) -> None:
        """Ends the program."""
        assert self.process.stdin and self.process.stdout
        self.process.stdin.close()
        self.process.stdout.close()
        self.process.wait()


def main_of(words: list[str], fault: str, place: int) -> None:
    """Plays a card on standard input and output."""
    card = BadCard(words, fault, place)
    try:
        card.play(sys.stdin)
    finally:
        card.end()
