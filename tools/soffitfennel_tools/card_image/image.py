"""A memory image in a file: its words, its journal, and the words after undo (docs/MEMORY.md, "Undo").

A flash image stands for the memory image of its pages."""
import fcntl
import os
import stat
import struct
from dataclasses import dataclass
from functools import cached_property

from . import layout
from .flash import KINDS, LARGE, SMALL, Flash, Kind, NoLog, flash_of, kind_of_size


# the bytes of the largest image
MOST_BYTES = max(layout.MOST_PAGES * layout.PAGE_BYTES, *(it.image_bytes for it in KINDS))


class Unreadable(Exception):
    """Why a file can't be read as a memory image."""


@dataclass(frozen=True)
class Pair:
    """A pair of the journal: an address, and the word that was there earlier."""

    number: int
    address: int
    earlier: int


@dataclass(frozen=True)
class Image:
    """The words of a memory, in their order, and the flash that has its pages, if one does."""

    words: tuple[int, ...]
    flash: Flash | None = None

    @property
    def pages(self) -> int:
        return len(self.words) // layout.PAGE_WORDS

    @property
    def gate(self) -> int:
        """How many pairs of the journal count."""
        return self.words[layout.GATE]

    def data(self) -> bytes:
        """The bytes of a file that has it."""
        return struct.pack(f">{len(self.words)}I", *self.words)

    @cached_property
    def pairs(self) -> list[Pair]:
        """The pairs that count, as far as the journal has room for them."""
        at = layout.JOURNAL
        counting = range(min(self.gate, layout.PAIRS))
        return [Pair(it, self.words[at + 2 * it], self.words[at + 2 * it + 1]) for it in counting]

    def bad_journal(self) -> tuple[str, str] | None:
        """The place that makes the journal a bad one, and why; None where undo is defined."""
        if self.gate > layout.PAIRS:
            return f"page {layout.GATE_PAGE}, word 0", f"{self.gate} pairs count, of at most {layout.PAIRS}"
        for pair in self.pairs:
            page = pair.address // layout.PAGE_WORDS
            where = f"journal pair {pair.number}"
            if page >= self.pages:
                return where, f"address {pair.address} is past the memory's end"
            if layout.GATE_PAGE <= page < layout.BLOCK_PAGE:
                return where, f"address {pair.address} is in the journal itself"
        return None

    @cached_property
    def undone(self) -> list[int]:
        """The words after undo of a good journal: of the pairs with one address the first counts."""
        words = list(self.words)
        for pair in reversed(self.pairs):
            words[pair.address] = pair.earlier
        words[layout.GATE] = 0
        return words


def image_of(data: bytes) -> Image:
    """The image that these bytes are, the most significant byte of each word first."""
    return Image(struct.unpack(f">{len(data) // layout.WORD_BYTES}I", data))


def image_of_flash(path: str, data: bytes) -> Image:
    """The memory image of the pages on a flash."""
    try:
        found = flash_of(data)
        return Image(found.pages, found)
    except NoLog as why:
        raise Unreadable(f"{path}: {why}") from None


def read_image(path: str) -> tuple[Image, bool]:
    """The memory image in a file, or of the pages on the flash there, and whether another program has it locked."""
    try:
        with open(path, "rb", opener=without_waiting) as it:
            if not stat.S_ISREG(os.fstat(it.fileno()).st_mode):
                raise Unreadable(f"{path} is not a regular file; a memory image is one")
            is_used = not can_lock(it.fileno())
            data = it.read(MOST_BYTES + 1)
            size = os.fstat(it.fileno()).st_size
            # (a process that another thread is starting has the open file, and its lock, for a moment longer)
            fcntl.flock(it.fileno(), fcntl.LOCK_UN)
    except OSError as error:
        raise Unreadable(f"{path}: {error.strerror}") from error
    if kind_of_size(len(data)):
        return image_of_flash(path, data), is_used
    if len(data) % layout.PAGE_BYTES or not layout.LEAST_PAGES <= len(data) // layout.PAGE_BYTES <= layout.MOST_PAGES:
        raise Unreadable(
            f"{path} has {max(size, len(data)):,} bytes; a memory image has {layout.PAGE_BYTES} bytes a page,"
            f" and {layout.LEAST_PAGES:,} to {layout.MOST_PAGES:,} pages; a flash image has"
            f" {LARGE.image_bytes:,} bytes, or {SMALL.image_bytes:,} with small sectors"
        )
    return image_of(data), is_used


def why_other_flash(path: str, image: Image, kind: Kind, task: str) -> str | None:
    """Why an image in a file isn't that of a flash of this kind, and how a task takes it; nothing if it is one."""
    if image.flash is None:
        return f"{path} has the memory of a card, and no flash: {task} it without --flash"
    if image.flash.kind == kind:
        return None
    how = "with" if image.flash.kind.has_small_sectors else "without"
    return f"{path} has a flash {how} small sectors: {task} it {how} --small-sectors"


def without_waiting(path: str, flags: int) -> int:
    """Opens a file, a FIFO without waiting for its writer."""
    return os.open(path, flags | os.O_NONBLOCK)


def can_lock(descriptor: int) -> bool:
    """Whether no other program has the file locked."""
    try:
        fcntl.flock(descriptor, fcntl.LOCK_SH | fcntl.LOCK_NB)
    except BlockingIOError:
        return False
    except OSError:
        pass
    return True
