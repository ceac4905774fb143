"""The card that a valid memory holds: its files, its PINs and its free space."""
from dataclasses import dataclass
from functools import cached_property

from ..explaining.templates import STATES

from . import layout
from .image import Image
from .layout import halves
from .rules import Break, Entry, Memory

KINDS = {layout.DIRECTORY: "DF", layout.TRANSPARENT: "transparent", layout.LINEAR: "linear", layout.CYCLIC: "cyclic"}


@dataclass(frozen=True)
class File:
    """A file: its entry, its path of identifiers, and the bytes of its body."""

    entry: Entry
    path: str
    blocks: list[int]
    body: bytes

    @property
    def identifier(self) -> str:
        return f"{self.entry.identifier:04X}"

    @property
    def kind(self) -> str:
        return KINDS[self.entry.kind]

    @property
    def is_directory(self) -> bool:
        return self.entry.kind == layout.DIRECTORY

    @property
    def life_cycle(self) -> str:
        return STATES[self.entry.life_cycle]

    @property
    def size(self) -> int:
        return len(self.body)

    @property
    def record_length(self) -> int:
        return halves(self.entry.words[8])[1]

    @property
    def has_records(self) -> bool:
        return self.entry.kind in (layout.LINEAR, layout.CYCLIC)

    @property
    def capacity(self) -> int:
        return self.size // self.record_length

    @cached_property
    def records(self) -> list[bytes]:
        """The records that exist, record 1 first."""
        number, start = halves(self.entry.words[10])
        slots = [(start + it) % self.capacity for it in range(number)]
        return [self.body[self.record_length * it:self.record_length * (it + 1)] for it in slots]


@dataclass(frozen=True)
class Pin:
    """A PIN, its tries and its secrets."""

    number: int
    tries: int
    unblocking_tries: int
    value: bytes
    unblocking_value: bytes
    is_enabled: bool


@dataclass(frozen=True)
class Card:
    """The card found in a memory."""

    format: int
    pages: int
    end: int
    is_terminated: bool
    files: list[File]
    pins: list[Pin]
    free_chain: list[int]

    @property
    def blocks(self) -> int:
        return self.end - layout.BLOCK_PAGE

    @property
    def free_entries(self) -> int:
        return layout.ENTRIES - len(self.files)

    @cached_property
    def by_path(self) -> dict[str, File]:
        return {it.path: it for it in self.files}

    @cached_property
    def owners(self) -> dict[int, File]:
        """The file of each block that is in use."""
        return {block: file for file in self.files for block in file.blocks}

    def children(self, parent: File) -> list[File]:
        """The files of a DF, in the order of their entries."""
        return [it for it in self.files if it.entry.number and it.entry.parent == parent.entry.number]


@dataclass(frozen=True)
class Reading:
    """What an image holds: the card found, or why there is none."""

    image: Image
    bad_journal: tuple[str, str] | None
    breaks: list[Break]
    card: Card | None


def read(image: Image) -> Reading:
    """Undoes the journal, checks the rules, and reads the card."""
    bad = image.bad_journal()
    if bad:
        return Reading(image, bad, [], None)
    memory = Memory(image.undone)
    breaks = list(memory.breaks())
    return Reading(image, None, breaks, None if breaks else card_of(memory))


def card_of(memory: Memory) -> Card:
    """The card of a memory that breaks no rule."""
    files: list[File] = []

    def visit(entry: Entry, above: str) -> None:
        path = f"{above}{entry.identifier:04X}"
        files.append(file_of(memory, entry, path))
        for child in memory.used:
            if child.number and child.parent == entry.number:
                visit(child, f"{path}/")

    visit(memory.entries[0], "")
    pins = [pin_of(memory, it) for it in range(1, layout.PINS + 1)]
    is_terminated, free = memory.words[2] == 1, memory.chain(memory.words[1])
    return Card(memory.format or 0, memory.pages, memory.end, is_terminated, files, pins, free)


def file_of(memory: Memory, entry: Entry, path: str) -> File:
    """The file of an entry."""
    if entry.kind == layout.DIRECTORY:
        return File(entry, path, [], b"")
    blocks = memory.body_chain(entry)
    body = b"".join(bytes_of(memory.page(it)[1:]) for it in blocks)
    return File(entry, path, blocks, body[:halves(entry.words[8])[0]])


def pin_of(memory: Memory, number: int) -> Pin:
    """The PIN of this number; in format 1 each is enabled."""
    words = memory.page(layout.PIN_PAGE + number - 1)
    enabled = memory.format == 1 or words[6] == 1
    return Pin(number, words[0], words[1], bytes_of(words[2:4]), bytes_of(words[4:6]), enabled)


def bytes_of(words: list[int]) -> bytes:
    """The bytes of words, the most significant first."""
    return b"".join(it.to_bytes(layout.WORD_BYTES, "big") for it in words)
