"""Lays a card out in a memory (docs/MEMORY.md, Words and pages), and describes the card that a memory holds."""
from ..card_image import layout
from ..card_image.image import Image
from ..card_image.tree import Card, File

from .draft import Draft, FileDraft, PinDraft

MARK = 0x54534332


def laid_out(draft: Draft) -> Image:
    """The memory of a card that draft.check() takes: entries and blocks in the order of the files, format 2."""
    words = [0] * (layout.PAGE_WORDS * draft.pages)
    free = layout.BLOCK_PAGE
    numbers = {it.path: entry for entry, it in enumerate(draft.files)}
    for entry, it in enumerate(draft.files):
        put(words, layout.ENTRY_PAGE + entry, file_words(it, numbers.get(it.parent, 0), free))
        free = lay_body(words, it.content(), free)
    for block in range(free, draft.pages):
        put(words, block, [block + 1 if block + 1 < draft.pages else 0])
    put(words, layout.HEADER, [MARK, free if free < draft.pages else 0, int(draft.is_terminated), draft.pages])
    for pin in draft.pins.values():
        put(words, layout.PIN_PAGE + pin.number - 1, pin_words(pin))
    return Image(tuple(words))


def put(words: list[int], page: int, given: list[int]) -> None:
    """Sets the first words of a page."""
    at = layout.PAGE_WORDS * page
    words[at : at + len(given)] = given


def words_in(data: bytes, size: int, rest: bytes = b"\0") -> list[int]:
    """Bytes as words, and behind them another byte up to a size."""
    whole = data.ljust(layout.WORD_BYTES * size, rest)
    return [int.from_bytes(whole[it : it + layout.WORD_BYTES], "big") for it in range(0, len(whole), layout.WORD_BYTES)]


def file_words(it: FileDraft, parent: int, first: int) -> list[int]:
    """The words of a file's entry, whose body begins on this block."""
    words = [it.kind << 24 | it.state << 16 | int(it.path[-4:], 16)]
    words += [parent << 24 | it.short << 16 | len(it.name) << 8 | len(it.rule)]
    words += words_in(it.rule, 2) + words_in(it.name, 4)
    if it.is_directory:
        return words
    last = first + layout.blocks_of(it.size) - 1
    number = it.existing if it.has_records else 0
    return words + [it.size << 16 | it.record_length, first << 16 | last, number << 16]


def lay_body(words: list[int], body: bytes, first: int) -> int:
    """Puts a body into blocks from the first one on, and gives the next block that is free."""
    end = first + layout.blocks_of(len(body))
    for block in range(first, end):
        start = layout.BLOCK_BYTES * (block - first)
        # (as CREATE FILE leaves the bytes behind a body)
        part = words_in(body[start : start + layout.BLOCK_BYTES], layout.PAGE_WORDS - 1, b"\xff")
        put(words, block, [block + 1 if block + 1 < end else 0, *part])
    return end


def pin_words(pin: PinDraft) -> list[int]:
    """The words of a PIN's page."""
    return [pin.tries, pin.puk_tries, *words_in(pin.value, 2), *words_in(pin.puk, 2), int(pin.is_enabled)]


def draft_of(card: Card) -> Draft:
    """The description of a card."""
    draft = Draft(card.pages, card.is_terminated, [file_of(it) for it in card.files])
    for pin in card.pins:
        made = PinDraft(0, pin.number, pin.value, pin.unblocking_value, pin.tries, pin.unblocking_tries, pin.is_enabled)
        draft.add_pin(made)
    return draft


def file_of(file: File) -> FileDraft:
    """The description of a file."""
    entry = file.entry
    made = FileDraft(0, file.path, entry.kind, file.size, 0, entry.life_cycle, entry.rule, entry.short_identifier)
    made.name = entry.name
    if file.has_records:
        made.record_length, made.records = file.record_length, list(file.records)
    else:
        made.body = file.body
    return made
