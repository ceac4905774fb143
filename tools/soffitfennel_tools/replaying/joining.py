"""Commands as T=1 has them, out of those of T=0."""
from __future__ import annotations

from collections.abc import Iterable, Iterator

from .traces import Exchange

GET_RESPONSE = 0xC0
DONE = b"\x90\x00"


def joined(given: Iterable[Exchange]) -> Iterator[Exchange]:
    """Puts 61XX (or 9FXX) together with GET RESPONSE, also in several parts, and 6CXX with its repetition."""
    waiting: Exchange | None = None
    part = b""
    for it in given:
        if waiting and it.sent and it.sent[1:2] == bytes([GET_RESPONSE]):
            part += it.got[:-2]
            if it.got[-2:-1] not in (b"\x61", b"\x9f", b"\x6c"):
                yield Exchange(waiting.place, (waiting.sent or b"") + b"\0", part + it.got[-2:])
                waiting = None
            continue
        if waiting:
            # (nobody asked for the answer)
            yield Exchange(waiting.place, waiting.sent, DONE)
            waiting = None
        if it.sent is not None and len(it.got) == 2 and it.got[0] in (0x61, 0x9F):
            waiting, part = it, b""
        elif not is_repeated(it):
            yield it
    if waiting:
        yield Exchange(waiting.place, waiting.sent, DONE)


def is_repeated(it: Exchange) -> bool:
    """Whether the card told the length, and the command follows once more."""
    return it.sent is not None and len(it.sent) == 5 and len(it.got) == 2 and it.got[0] == 0x6C
