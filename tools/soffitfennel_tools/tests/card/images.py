"""Images that are built from the tables of docs/MEMORY.md, and what the reader says of each."""
import struct
from collections.abc import Iterable, Iterator

from ...card_image.image import Image
from ...card_image.rules import Memory

from .checks import Checks

PAGES = 1024
ENTRIES, PINS, GATE, PAIRS, BLOCKS = 1, 65, 1168, 1184, 128
# Of each part of the memory: the pages and the words that the rules look at; and how often the factory's card starts,
# is Damaged and has a bad journal where each of these words is 0, all bits, or has one bit turned. The numbers were
# counted by another program, written from the rules.
PARTS = {
    "header": (range(0, 1), range(4), (2, 134, 0)),
    "entries": (range(ENTRIES, PINS), range(11), (21_625, 2_311, 0)),
    "PINs": (range(PINS, 73), range(7), (1_152, 752, 0)),
    "gate": (range(73, 74), range(1), (1, 9, 24)),
    "links": (range(BLOCKS, PAGES), range(1), (2, 30_462, 0)),
}
QUICK = ("header", "PINs", "gate")
STARTS, DAMAGED, BAD_JOURNAL = range(3)

# words changed in the factory's memory, and what its start comes to
STARTS_OF = (
    ({0: 0x54534330}, DAMAGED),
    ({33: 0x01020003}, DAMAGED),
    ({1040: 4}, DAMAGED),
    ({2048: 128}, DAMAGED),
    ({GATE: 433}, BAD_JOURNAL),
    ({GATE: 1, PAIRS: GATE}, BAD_JOURNAL),
    ({3: 1023}, DAMAGED),
    ({3: 1025}, DAMAGED),
    ({1046: 2}, DAMAGED),
    ({1046: 0}, STARTS),
    ({GATE: 1, PAIRS: 16384}, BAD_JOURNAL),
    ({GATE: 0, PAIRS: 16384}, STARTS),
    ({GATE: 2, PAIRS: 2049, PAIRS + 1: 0x98103254, PAIRS + 2: 2049, PAIRS + 3: 0, 2049: 7}, STARTS),
    # two pairs of one address: the first one has the word before the transaction
    ({0: 7, GATE: 2, PAIRS: 0, PAIRS + 1: 0x54534332, PAIRS + 2: 0, PAIRS + 3: 9}, STARTS),
    ({0: 7, GATE: 2, PAIRS: 0, PAIRS + 1: 9, PAIRS + 2: 0, PAIRS + 3: 0x54534332}, DAMAGED),
)
# words changed, and the place of the first break that the reader names
PLACES = (
    ({0: 0}, "page 0, word 0"),
    ({3: 4097}, "page 0, word 3"),
    ({16: 0x01063F00}, "page 1, word 0 (entry 0)"),
    ({33: 0x01020003}, "page 2, word 1 (entry 1)"),
    ({32: 0x02053F00}, "page 2, word 0 (entry 1)"),
    ({33: 0x001F0003}, "page 2, word 1 (entry 1)"),
    ({34: 0x03111900}, "page 2, word 2 (entry 1)"),
    ({40: 0}, "page 2, word 8 (entry 1)"),
    ({41: 0x00810080}, "page 129, word 0"),
    ({41: 0x00800081}, "page 2, word 9 (entry 1)"),
    ({2048: 129}, "page 128, word 0"),
    ({16 * 200: 0}, "page 201"),
    ({1041: 11}, "page 65, word 1"),
)


def factory() -> list[int]:
    """The words of the factory's memory, by its table."""
    words = [0] * 16 * PAGES
    words[0:4] = [0x54534332, 129, 0, PAGES]
    words[16:19] = [0x01053F00, 5, 0x27180000]
    words[32:35] = [0x02052FE2, 0x00020003, 0x03110000]
    words[40:42] = [0x000A0000, 0x00800080]
    for page in range(PINS, 73):
        words[16 * page:16 * page + 7] = [3, 10, 0x31323334, 0xFFFFFFFF, 0x31323334, 0x35363738, 1]
    words[2049:2052] = [0x98103254, 0x76981032, 0x5476FFFF]
    words[2052:2064] = [0xFFFFFFFF] * 12
    for page in range(129, PAGES - 1):
        words[16 * page] = page + 1
    return words


def data_of(words: list[int]) -> bytes:
    """The bytes of an image."""
    return struct.pack(f">{len(words)}I", *words)


def changed(changes: dict[int, int]) -> list[int]:
    """The factory's memory with other words at some addresses."""
    words = factory()
    for address, word in changes.items():
        words[address] = word
    return words


def outcome(words: Iterable[int]) -> int:
    """What the reader says of a start over these words."""
    image = Image(tuple(words))
    if image.bad_journal():
        return BAD_JOURNAL
    return DAMAGED if next(Memory(image.undone).breaks(), None) else STARTS


def values_of(word: int) -> Iterator[int]:
    """A word that is 0, all bits, or has one bit turned."""
    yield from (0, 0xFFFFFFFF)
    yield from (word ^ 1 << bit for bit in range(32))


def count(part: str) -> tuple[int, ...]:
    """How often each outcome comes where one word of a part is another."""
    words, found = factory(), [0, 0, 0]
    pages, places, _ = PARTS[part]
    for address in (16 * page + place for page in pages for place in places):
        before = words[address]
        for words[address] in values_of(before):
            found[outcome(words)] += 1
        words[address] = before
    return tuple(found)


def check(checks: Checks, is_whole: bool) -> None:
    """The reader on images built by hand."""
    for changes, wanted in STARTS_OF:
        checks.compare(f"a start over {changes}", wanted, outcome(changed(changes)))
    for changes, place in PLACES:
        first = next(Memory(changed(changes)).breaks(), None)
        checks.compare(f"the place that {changes} breaks", place, first and first.place)
    for part in PARTS if is_whole else QUICK:
        checks.compare(f"each word of the {part} is another", PARTS[part][2], count(part))
