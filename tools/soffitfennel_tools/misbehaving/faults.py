"""The faults of a block that a card sends. Each gives the block in place of the right one."""
from __future__ import annotations

from collections.abc import Callable
from dataclasses import dataclass
from functools import reduce
from operator import xor

MORE, NUMBER, RECEIVE_READY, OTHER = 0x20, 0x40, 0x80, 2
WAIT, FIELD_SIZE, ABORT, RESYNCH = 0xC3, 0xC1, 0xC2, 0xC0


def framed(block: bytes) -> bytes:
    """A block with its check byte."""
    return block + bytes([reduce(xor, block)])


@dataclass(frozen=True)
class Moment:
    """The reader's block, the right answer to it, the answer before, and the first answer."""

    sent: bytes
    right: bytes
    last: bytes | None
    first: bytes | None

    @property
    def is_information(self) -> bool:
        return not self.right[1] & 0x80

    def changed(self, place: int, value: int) -> bytes:
        """The right answer with another byte, and the check byte that fits."""
        return framed(self.right[:place] + bytes([value & 0xFF]) + self.right[place + 1 : -1])

    def information(self, field: bytes) -> bytes:
        """An I-block of the right number."""
        return framed(bytes([0, self.right[1] & NUMBER, len(field)]) + field) if self.is_information else self.right

    def ready(self, number: int, reason: int) -> bytes:
        """An R-block."""
        return framed(bytes([0, RECEIVE_READY | number << 4 | reason, 0]))

    @property
    def number(self) -> int:
        """The number of the reader's block."""
        return self.sent[1] >> 6 & 1


def unless(is_so: bool, right: bytes, spoiled: Callable[[], bytes]) -> bytes:
    """A spoiled block, where the right one can be spoiled so."""
    return spoiled() if is_so else right


@dataclass(frozen=True)
class Fault:
    """A fault: its words, whether a request stands in front of the right answer, and whether a reader can tell."""

    words: str
    spoil: Callable[[Moment], bytes]
    is_request: bool = False
    can_tell: bool = True


FAULTS = {
    "lrc": Fault("a wrong check byte", lambda it: it.right[:-1] + bytes([it.right[-1] ^ 0x40])),
    "data": Fault(
        "other data, with a check byte that fits",
        lambda it: unless(it.right[2] > 0, it.right, lambda: it.changed(3, it.right[3] ^ 1)),
        can_tell=False,
    ),
    "garbled": Fault(
        "other data, with the old check byte",
        lambda it: unless(it.right[2] > 0, it.right, lambda: it.changed(3, it.right[3] ^ 1)[:-1] + it.right[-1:]),
    ),
    "nad": Fault("NAD 21", lambda it: it.changed(0, 0x21)),
    "longer": Fault("LEN one above", lambda it: it.changed(2, min(254, it.right[2] + 1))),
    "shorter": Fault(
        "LEN one below", lambda it: unless(it.right[2] > 0, it.right, lambda: it.changed(2, it.right[2] - 1))
    ),
    "number": Fault(
        "an I-block of the other number",
        lambda it: unless(it.is_information, it.right, lambda: it.changed(1, it.right[1] ^ NUMBER)),
    ),
    "pcb": Fault("an unknown PCB", lambda it: it.changed(1, 0xE5)),
    "more": Fault(
        "M at the last block", lambda it: unless(it.is_information, it.right, lambda: it.changed(1, it.right[1] | MORE))
    ),
    "no-more": Fault(
        "M taken away",
        lambda it: unless(it.is_information, it.right, lambda: it.changed(1, it.right[1] & ~MORE)),
        can_tell=False,
    ),
    "wait": Fault("a request for more time", lambda it: framed(bytes([0, WAIT, 1, 1])), is_request=True),
    "field-16": Fault("a request for fields of 16", lambda it: framed(bytes([0, FIELD_SIZE, 1, 16])), is_request=True),
    "field-255": Fault(
        "a request for fields of 255", lambda it: framed(bytes([0, FIELD_SIZE, 1, 255])), is_request=True
    ),
    "field-0": Fault("a request for fields of 0", lambda it: framed(bytes([0, FIELD_SIZE, 1, 0])), is_request=True),
    "abort": Fault("a request to abort", lambda it: framed(bytes([0, ABORT, 0]))),
    "resynch": Fault("a request to begin anew, which a card never sends", lambda it: framed(bytes([0, RESYNCH, 0]))),
    "len-ff": Fault("LEN FF, and 255 bytes", lambda it: framed(bytes([0, it.right[1] & NUMBER, 255]) + bytes(255))),
    "empty": Fault("no byte", lambda it: b""),
    "one": Fault("one byte", lambda it: b"\0"),
    "nak": Fault("an R-block that asks for the block once more", lambda it: it.ready(it.number, OTHER)),
    "ready": Fault("an R-block of the other number", lambda it: it.ready(1 - it.number, 0)),
    "twice": Fault("the answer before once more", lambda it: it.last or it.right),
    "old": Fault("the first answer of all", lambda it: it.first or it.right, can_tell=False),
    "bare": Fault("an I-block without data", lambda it: it.information(b""), can_tell=False),
    "status-cut": Fault("an I-block of one byte", lambda it: it.information(b"\x90"), can_tell=False),
    "echo": Fault("the reader's own block", lambda it: it.sent, can_tell=False),
}
