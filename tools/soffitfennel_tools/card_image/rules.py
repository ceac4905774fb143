"""The eight rules of a valid memory (docs/MEMORY.md, "When a memory stands for a card"), each break with its place."""
from collections.abc import Callable, Iterator
from dataclasses import dataclass

from ..explaining.templates import STATES

from . import layout
from .layout import CYCLIC, DIRECTORY, FREE, LINEAR, TRANSPARENT, halves
from .rule_words import is_rule

MOST_STEPS = 7
MOST_SHORT, MOST_NAME, MOST_SIZE, MOST_RECORD, MOST_CAPACITY = 30, 16, 32767, 255, 254
MOST_TRIES, MOST_UNBLOCKING = 3, 10


@dataclass(frozen=True)
class Break:
    """A rule that a memory breaks, where, and how."""

    rule: int
    place: str
    why: str


@dataclass(frozen=True)
class Entry:
    """A file's entry, as its words say."""

    number: int
    words: list[int]

    def byte(self, word: int, place: int) -> int:
        return self.words[word] >> 8 * (3 - place) & 0xFF

    def run(self, word: int, length: int) -> bytes:
        """Bytes from this word on."""
        data = b"".join(it.to_bytes(layout.WORD_BYTES, "big") for it in self.words[word:word + 4])
        return data[:length]

    @property
    def kind(self) -> int:
        return self.byte(0, 0)

    @property
    def life_cycle(self) -> int:
        return self.byte(0, 1)

    @property
    def identifier(self) -> int:
        return self.words[0] & 0xFFFF

    @property
    def parent(self) -> int:
        return self.byte(1, 0)

    @property
    def short_identifier(self) -> int:
        return self.byte(1, 1)

    @property
    def name_length(self) -> int:
        return self.byte(1, 2)

    @property
    def name(self) -> bytes:
        return self.run(4, self.name_length)

    @property
    def rule(self) -> bytes:
        return self.run(2, self.byte(1, 3))

    @property
    def is_body(self) -> bool:
        """Whether it is that of an EF."""
        return TRANSPARENT <= self.kind <= CYCLIC

    def place(self, word: int) -> str:
        return f"page {layout.ENTRY_PAGE + self.number}, word {word} (entry {self.number})"


class Memory:
    """The words of a memory after undo, and what the rules say of them."""

    def __init__(self, words: list[int]) -> None:
        self.words = words
        self.pages = len(words) // layout.PAGE_WORDS
        self.format = layout.FORMATS.get(words[0])
        self.end = words[3] if self.format == 2 else layout.OLD_END
        every = [Entry(it, self.page(layout.ENTRY_PAGE + it)) for it in range(layout.ENTRIES)]
        self.entries = every
        self.used = [it for it in every if it.kind != FREE]

    def page(self, number: int) -> list[int]:
        """The words of a page."""
        return self.words[layout.PAGE_WORDS * number:layout.PAGE_WORDS * (number + 1)]

    def link(self, block: int) -> int:
        return self.words[layout.PAGE_WORDS * block]

    def is_block(self, page: int) -> bool:
        return layout.BLOCK_PAGE <= page < min(self.end, self.pages)

    def chain(self, first: int, most: int = layout.MOST_PAGES) -> list[int]:
        """The pages of a chain, at most some, up to its end, to what is no block, or to what comes twice."""
        found: list[int] = []
        seen: set[int] = set()
        at = first
        while at and len(found) < most and self.is_block(at) and at not in seen:
            found.append(at)
            seen.add(at)
            at = self.link(at)
        return found

    def body_chain(self, entry: "Entry") -> list[int]:
        """The pages of an EF's chain, as many as its size needs at most."""
        return self.chain(halves(entry.words[9])[0], layout.blocks_of(halves(entry.words[8])[0]))

    def breaks(self) -> Iterator[Break]:
        """Each break of a rule, in the order of the rules."""
        for number, rule in enumerate(RULES, 1):
            for place, why in rule(self):
                yield Break(number, place, why)


Breaks = Iterator[tuple[str, str]]


def header(memory: Memory) -> Breaks:
    """Rule 1: mark, card state, and where the blocks end."""
    if memory.format is None:
        yield "page 0, word 0", f"{memory.words[0]:08X} is the mark of no format"
    if memory.words[2] > 1:
        yield "page 0, word 2", f"card state {memory.words[2]} is neither 0 nor 1"
    if not layout.OLD_END <= memory.end <= memory.pages:
        yield "page 0, word 3", f"the blocks end on page {memory.end}, not on {layout.OLD_END} to {memory.pages}"


def kinds(memory: Memory) -> Breaks:
    """Rule 2: kind and life cycle of each entry, and the MF."""
    for entry in memory.entries:
        if entry.kind > CYCLIC:
            yield entry.place(0), f"kind {entry.kind} is none of 0 to 4"
        elif entry.kind == FREE and entry.words[0]:
            yield entry.place(0), f"{entry.words[0]:08X} in a free entry is not 0"
        elif entry.kind and entry.life_cycle not in STATES:
            yield entry.place(0), f"life cycle {entry.life_cycle:02X} is none of 01, 03, 04, 05 and 0C"
    first = memory.entries[0]
    if first.kind != DIRECTORY or first.identifier != layout.MASTER_FILE:
        yield first.place(0), "it is not the DF 3F00"
    if first.parent:
        yield first.place(1), f"the MF's parent is {first.parent}, not 0"


def tree(memory: Memory) -> Breaks:
    """Rule 3: parents, levels and reserved identifiers."""
    for entry in memory.used:
        if entry.number == 0:
            continue
        if entry.identifier == layout.MASTER_FILE or entry.identifier in layout.RESERVED:
            yield entry.place(0), f"identifier {entry.identifier:04X} is reserved"
        if entry.parent >= layout.ENTRIES or memory.entries[entry.parent].kind != DIRECTORY:
            yield entry.place(1), f"parent {entry.parent} is no DF"
        elif not reaches_master(memory, entry):
            yield entry.place(1), f"the MF is not reached within {MOST_STEPS} steps from child to parent"


def reaches_master(memory: Memory, entry: Entry) -> bool:
    """Whether the MF is reached from a file by its parents, within the steps allowed."""
    at = entry
    for _ in range(MOST_STEPS):
        if at.parent >= layout.ENTRIES:
            return False
        at = memory.entries[at.parent]
    return at.number == 0


def names(memory: Memory) -> Breaks:
    """Rule 4: short identifiers, lengths of names, rules, and what differs."""
    for entry in memory.used:
        is_directory = entry.kind == DIRECTORY
        if entry.short_identifier > (0 if is_directory else MOST_SHORT):
            yield entry.place(1), f"short identifier {entry.short_identifier} of {'a DF' if is_directory else 'an EF'}"
        if entry.name_length > (MOST_NAME if is_directory else 0):
            yield entry.place(1), f"a name of {entry.name_length} bytes of {'a DF' if is_directory else 'an EF'}"
        if not is_rule(entry.rule) or len(entry.rule) != entry.byte(1, 3):
            yield entry.place(2), f"{entry.rule.hex().upper()} is not an access rule of {entry.byte(1, 3)} bytes"
    yield from twins(memory)


def twins(memory: Memory) -> Breaks:
    """Rule 4: two files of one DF with one identifier, or two names that are equal."""
    seen: dict[tuple[str, int, int | bytes], Entry] = {}
    for entry in memory.used:
        keys: list[tuple[str, int, int | bytes]] = []
        if entry.number:
            keys.append(("identifier", entry.parent, entry.identifier))
        if entry.number and entry.short_identifier:
            keys.append(("short identifier", entry.parent, entry.short_identifier))
        if entry.name_length:
            keys.append(("name", 0, entry.name))
        for key in keys:
            earlier = seen.setdefault(key, entry)
            if earlier is not entry:
                word = {"identifier": 0, "short identifier": 1, "name": 4}[key[0]]
                yield entry.place(word), f"it has the {key[0]} of entry {earlier.number}"


def sizes(memory: Memory) -> Breaks:
    """Rule 5: sizes, and numbers of records."""
    for entry in memory.used:
        if not entry.is_body:
            continue
        (size, length), (number, start) = halves(entry.words[8]), halves(entry.words[10])
        if entry.kind == TRANSPARENT:
            if not 1 <= size <= MOST_SIZE or length:
                yield entry.place(8), f"size {size}, record length {length} of a transparent EF"
            if number or start:
                yield entry.place(10), f"{number} records from slot {start} on in a transparent EF"
            continue
        if not 1 <= length <= MOST_RECORD or size % length or size > MOST_SIZE:
            yield entry.place(8), f"size {size} for records of {length} bytes"
        elif not 1 <= size // length <= MOST_CAPACITY:
            yield entry.place(8), f"a capacity of {size // length} records"
        elif number > size // length or start >= (1 if entry.kind == LINEAR else size // length):
            yield entry.place(10), f"{number} records from slot {start} on, of {size // length}"


def chains(memory: Memory) -> Breaks:
    """Rule 6: each EF's chain is as long as its size needs, and ends on the block that the entry names."""
    for entry in memory.used:
        if not entry.is_body or not layout.OLD_END <= memory.end <= memory.pages:
            continue
        needed, found = layout.blocks_of(halves(entry.words[8])[0]), memory.body_chain(entry)
        where = f"page {found[-1]}, word 0" if found else entry.place(9)
        if len(found) < needed:
            yield where, f"the chain of entry {entry.number} has {len(found)} blocks, and its size needs {needed}"
        elif found and memory.link(found[-1]):
            yield where, f"the last block of entry {entry.number} links to {memory.link(found[-1])}"
        elif found and found[-1] != halves(entry.words[9])[1]:
            yield entry.place(9), f"its chain ends on block {found[-1]}, which the entry doesn't name"


def each_block_once(memory: Memory) -> Breaks:
    """Rule 7: the free chain ends, and each block is in one chain."""
    if not layout.OLD_END <= memory.end <= memory.pages:
        return
    free = memory.chain(memory.words[1])
    stop = memory.link(free[-1]) if free else memory.words[1]
    if stop:
        where = f"page {free[-1]}, word 0" if free else "page 0, word 1"
        yield where, f"the free chain goes on to {stop}, which is {'in it already' if stop in free else 'no block'}"
    owner = {it: "the free chain" for it in free}
    for entry in memory.used:
        if not entry.is_body:
            continue
        for block in memory.body_chain(entry):
            if block in owner:
                yield f"page {block}", f"this block is in {owner[block]} and in the chain of entry {entry.number}"
                break
            owner[block] = f"the chain of entry {entry.number}"
    lost = [it for it in range(layout.BLOCK_PAGE, memory.end) if it not in owner]
    if lost:
        yield f"page {lost[0]}", f"this block is in no chain; {len(lost)} such blocks in all"


def pins(memory: Memory) -> Breaks:
    """Rule 8: tries, and the mark of an enabled PIN."""
    for number in range(layout.PINS):
        page = layout.PIN_PAGE + number
        words = memory.page(page)
        checks = [(0, MOST_TRIES), (1, MOST_UNBLOCKING)] + [(6, 1)] * (memory.format == 2)
        for word, most in checks:
            if words[word] > most:
                what = f"{layout.PIN_WORDS[word]} of PIN {number + 1}"
                yield f"page {page}, word {word}", f"{what}: {words[word]} is above {most}"


RULES: tuple[Callable[[Memory], Breaks], ...] = (header, kinds, tree, names, sizes, chains, each_block_once, pins)
