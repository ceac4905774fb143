"""What the next power-on takes back: the pairs of the journal, in the card's terms."""
from dataclasses import dataclass

from . import layout
from .rules import Entry
from .tree import Card, Reading


@dataclass(frozen=True)
class Step:
    """A word that recovery writes back, where the memory has another one now."""

    address: int
    place: str
    subject: str
    now: int
    earlier: int

    def is_hidden(self, has_secrets: bool) -> bool:
        """Whether its words are a PIN's, and may not be shown."""
        return layout.is_secret(self.address) and not has_secrets


def steps(reading: Reading) -> list[Step]:
    """Each word that the counting pairs name, once, in the order of the pairs."""
    image, found = reading.image, []
    for address in dict.fromkeys(it.address for it in image.pairs):
        page, word = divmod(address, layout.PAGE_WORDS)
        part, use = layout.part_of(page, word)
        subject = subject_of(reading, page)
        place = f"{part}, {use}" if subject == part else f"{part} ({subject}), {use}"
        found.append(Step(address, place, subject, image.words[address], image.undone[address]))
    return found


def subject_of(reading: Reading, page: int) -> str:
    """What of the card a page holds: a file by its path, or the part of the memory."""
    card = reading.card
    if layout.ENTRY_PAGE <= page < layout.PIN_PAGE:
        return entry_subject(reading, page)
    if card and page >= layout.BLOCK_PAGE:
        return block_owner(card, page)
    return layout.part_of(page, 0)[0]


def entry_subject(reading: Reading, page: int) -> str:
    """The file of an entry's page, also one that the interrupted transaction makes or deletes."""
    number, now = page - layout.ENTRY_PAGE, words_now(reading, page)
    if reading.card:
        for file in reading.card.files:
            if file.entry.number == number:
                return f"{file.path}, being deleted" if now.kind == layout.FREE else file.path
    return f"{now.identifier:04X}, being created" if now.kind else f"entry {number}"


def words_now(reading: Reading, page: int) -> Entry:
    """An entry as its words are before undo."""
    start = layout.PAGE_WORDS * page
    return Entry(page - layout.ENTRY_PAGE, list(reading.image.words[start:start + layout.PAGE_WORDS]))


def block_owner(card: Card, page: int) -> str:
    """The file whose chain has a block, or what else it is."""
    if page in card.owners:
        return card.owners[page].path
    return "free" if page < card.end else "not used"
