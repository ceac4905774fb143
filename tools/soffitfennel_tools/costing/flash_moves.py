"""What sessions wear of a flash in a file: the sectors that are erased, and the records that writes and moves take.

A card has all pages of its flash, as its chain of free blocks is in them. So a move copies them all, and each of the
1,280 slots of an area that isn't a copy takes a write. The flash is read between pieces of a session, each shorter than
the erases of a move: no slot is erased and filled again in one.
"""
from __future__ import annotations

import subprocess
from collections.abc import Iterator
from pathlib import Path
from typing import NamedTuple

from ..card_image.flash import LARGE, MARK_WORDS, PAGES, SLOT_WORDS, Flash, flash_of, laid_out
from ..card_image.image import read_image
from .wear import Uncut

# the sectors, with the witness, and the slots
AREAS = range(len(LARGE.areas))
BLOCKS = [*(LARGE.sector(at, it) for at in AREAS for it in range(LARGE.sectors)), (LARGE.witness, MARK_WORDS)]
PLACES = [LARGE.slot(at, it) for at in AREAS for it in range(LARGE.slots)]
# a piece has fewer writes than a move has erases; the seed of the garbage, of which there is none
MOST_WRITES, SEED = LARGE.sectors - 1, "7"
# The rounds of the log that are counted: in each, two moves erase each sector once. The first one is not counted, as
# the other area of a new flash is blank.
ROUNDS = 3


class Piece(NamedTuple):
    """What a piece of a session did: the writes of the card, unless a move ended in it, the records that they and the
    move took, and whether each sector was erased."""

    writes: int | None
    records: int
    erased: tuple[bool, ...]


class Rounds(NamedTuple):
    """What was counted over some rounds: the sessions, the writes of the card, the records that they and the moves
    took, and how often each sector was erased."""

    sessions: int
    writes: int
    records: int
    erases: tuple[int, ...]

    @property
    def amplification(self) -> float:
        """The records written for each write."""
        return self.records / self.writes

    @property
    def again(self) -> float:
        """The pages that a move copied again."""
        return (self.records - self.writes) / (2 * ROUNDS) - PAGES


def erased(before: Flash, after: Flash) -> Iterator[bool]:
    """Whether each sector was erased: a program clears bits, and sets none."""
    for at, size in BLOCKS:
        old, new = before.words[at:at + size], after.words[at:at + size]
        yield old != new and any(it & ~was for was, it in zip(old, new))


def taken(before: Flash, after: Flash) -> int:
    """The slots that were filled."""
    filled = (it for it in PLACES if before.words[it:it + SLOT_WORDS] != after.words[it:it + SLOT_WORDS])
    return sum(not after.is_blank(it, SLOT_WORDS) for it in filled)


def pieces(program: str, image: Path, script: str) -> Iterator[Flash]:
    """The flash behind a script, again and again."""
    while True:
        words = [program, SEED, "--card", str(image)]
        ran = subprocess.run(words, input=script, capture_output=True, text=True, check=False)
        if ran.returncode:
            raise Uncut(f"the program ended with status {ran.returncode}: {ran.stderr.strip()}")
        # (without a lock, which a child of another thread would hold for a moment)
        yield flash_of(image.read_bytes())


def piece_of(before: Flash, after: Flash) -> Piece:
    """What a piece did. A write takes a slot at home, and copies take slots of the other area."""
    home = before.home
    writes = after.areas[home].used - before.areas[home].used if after.home == home else None
    return Piece(writes, taken(before, after), tuple(erased(before, after)))


def in_all(found: list[Piece], times: int) -> Rounds:
    """What pieces of so many sessions each did. One in which a move ended has as many writes as the others on
    average."""
    known = [it.writes for it in found if it.writes is not None]
    writes = round(sum(known) * len(found) / len(known))
    erases = tuple(sum(it) for it in zip(*(piece.erased for piece in found)))
    return Rounds(times * len(found), writes, sum(it.records for it in found), erases)


def rounds_of(program: str, made: Path, lines: list[str], writes: int) -> Rounds:
    """Counts a session of a card, of about so many writes, from the end of a round to that of another one."""
    image, times = made.with_suffix(".flash"), MOST_WRITES // writes
    image.write_bytes(laid_out(read_image(str(made))[0].words))
    before, ended = flash_of(image.read_bytes()), 0
    found: list[Piece] = []
    for after in pieces(program, image, "".join(f"{it}\n" for it in ["on", *lines] * times)):
        if 0 < ended <= ROUNDS:
            found.append(piece_of(before, after))
        ended += before.turn == 2 and after.turn == 0
        before = after
        if ended > ROUNDS:
            break
    return in_all(found, times)
