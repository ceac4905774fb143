"""Where a card's memory holds what: the tables of docs/MEMORY.md, "Words and pages"."""
WORD_BYTES = 4
PAGE_WORDS = 16
PAGE_BYTES = WORD_BYTES * PAGE_WORDS
LEAST_PAGES, MOST_PAGES = 1024, 4096
# a format by the mark in word 0
FORMATS = {0x54534331: 1, 0x54534332: 2}
# of format 1 the page where the blocks end, and of format 2 the least one
OLD_END = 1024

HEADER = 0
ENTRY_PAGE, ENTRIES = 1, 64
PIN_PAGE, PINS = 65, 8
GATE_PAGE = 73
JOURNAL_PAGE, PAIRS = 74, 432
BLOCK_PAGE, BLOCK_BYTES = 128, 60
GATE = PAGE_WORDS * GATE_PAGE
JOURNAL = PAGE_WORDS * JOURNAL_PAGE

FREE, DIRECTORY, TRANSPARENT, LINEAR, CYCLIC = range(5)
MASTER_FILE = 0x3F00
RESERVED = (0x3FFF, 0xFFFF)

HEADER_WORDS = ("mark", "first free block", "card state", "end of the blocks")
ENTRY_WORDS = (
    "kind, life cycle, identifier", "parent, short identifier, lengths", "rule", "rule",
    "name", "name", "name", "name", "size, record length", "first and last block", "number of records, start slot",
)
PIN_WORDS = ("tries", "unblocking tries", "value", "value", "unblocking value", "unblocking value", "enabled")


# the words of a PIN's page that are its secrets
PIN_SECRETS = tuple(it for it, use in enumerate(PIN_WORDS) if use.endswith("value"))


def is_secret(address: int) -> bool:
    """Whether the word of this address is a part of a PIN's value or unblocking value."""
    page, word = divmod(address, PAGE_WORDS)
    return PIN_PAGE <= page < GATE_PAGE and word in PIN_SECRETS


def halves(word: int) -> tuple[int, int]:
    """The upper and the lower 16 bits of a word."""
    return word >> 16, word & 0xFFFF


def blocks_of(size: int) -> int:
    """How many blocks a file of this size has."""
    return -(-size // BLOCK_BYTES)


def part_of(page: int, word: int) -> tuple[str, str]:
    """The part of the memory in which a word lies, and what the word is for."""
    def named(words: tuple[str, ...]) -> str:
        return words[word] if word < len(words) else "not used"

    if page == HEADER:
        return "header", named(HEADER_WORDS)
    if page < PIN_PAGE:
        return f"entry {page - ENTRY_PAGE}", named(ENTRY_WORDS)
    if page < GATE_PAGE:
        return f"PIN {page - PIN_PAGE + 1}", named(PIN_WORDS)
    if page < JOURNAL_PAGE:
        return "journal gate", named(("number of pairs",))
    if page < BLOCK_PAGE:
        place = PAGE_WORDS * (page - JOURNAL_PAGE) + word
        return f"journal pair {place // 2}", "earlier word" if place % 2 else "address"
    first = WORD_BYTES * (word - 1)
    return f"block {page}", "link" if word == 0 else f"bytes {first} to {first + WORD_BYTES - 1}"
