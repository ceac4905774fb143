"""A flash image: its blocks, whose turn it is, and the words of its pages (docs/FLASH.md, "Layout").

The bench simulates two kinds of flash. An image has the size of its kind."""
import struct
from dataclasses import dataclass
from functools import cached_property

from . import layout

SLOT_WORDS, PAGES = 20, layout.LEAST_PAGES
# where a slot has the number of its page, and its mark
NUMBER, MARK_AT = 16, 18
MARK = (0x436F6D6D, 0x69747321)
BLANK = 0xFFFFFFFF
MARK_WORDS = len(MARK)
# the name of each area
NAMES = ("A", "B")
# a step of a move copies so many pages
STEP_PAGES = 16
STEPS = PAGES // STEP_PAGES
# the tries of a write, and how many numbers of steps a power-on looks at first (crates/sector_moves)
TRIES = 8
NEAR_STEPS = TRIES + 2


class NoLog(Exception):
    """Why nobody knows where a flash has its pages."""


@dataclass(frozen=True)
class Kind:
    """The sizes of a kind of flash, and whether a step of a move erases one sector and fills it."""

    slots: int
    # the sectors of an area, and the words of each; the last one has the close mark too
    sectors: int
    sector_words: int
    has_small_sectors: bool

    @property
    def name(self) -> str:
        """What a person calls such a flash."""
        return "a flash with small sectors" if self.has_small_sectors else "a flash"

    @property
    def options(self) -> list[str]:
        """The words of a command line that ask for it, beside the seed."""
        return ["--small-sectors"] if self.has_small_sectors else []

    @property
    def area_words(self) -> int:
        """The words of an area: its slots and its close mark."""
        return SLOT_WORDS * self.slots + MARK_WORDS

    @property
    def areas(self) -> tuple[int, int]:
        """The address of each area."""
        return 0, self.area_words

    @property
    def witness(self) -> int:
        """The address of the witness."""
        return 2 * self.area_words

    @property
    def words(self) -> int:
        """The words of the flash."""
        return self.witness + MARK_WORDS

    @property
    def image_bytes(self) -> int:
        """The bytes of an image."""
        return layout.WORD_BYTES * self.words

    @property
    def lead(self) -> int:
        """The free slots from which on a write takes a step of a move."""
        return self.sectors + 1 + TRIES + (0 if self.has_small_sectors else STEPS)

    def sector(self, area: int, number: int) -> tuple[int, int]:
        """The address of a sector of an area, by its number in the area, and how many words it has."""
        first, is_last = self.sector_words * number, number == self.sectors - 1
        return self.areas[area] + first, self.area_words - first if is_last else self.sector_words

    def slot(self, area: int, number: int) -> int:
        """The address of a slot of an area."""
        return self.areas[area] + SLOT_WORDS * number

    def first_slot(self, sector: int) -> int:
        """The first slot that begins in a sector of an area, or behind it."""
        return -(-self.sector_words * sector // SLOT_WORDS)

    def slots_before(self, sector: int) -> int:
        """The slots of an area that end where a sector begins, or before."""
        return self.sector_words * sector // SLOT_WORDS


LARGE = Kind(slots=1280, sectors=51, sector_words=502, has_small_sectors=False)
SMALL = Kind(slots=2048, sectors=80, sector_words=512, has_small_sectors=True)
KINDS = (LARGE, SMALL)


def kind_for(has_small_sectors: bool) -> Kind:
    """The kind of flash that a command line asks for."""
    return SMALL if has_small_sectors else LARGE


def kind_of_size(size: int) -> Kind | None:
    """The kind of flash whose image has so many bytes."""
    return next((it for it in KINDS if it.image_bytes == size), None)


@dataclass(frozen=True)
class Area:
    """An area: whether its mark is there, its slots, those before the first free one, and what these hold."""

    name: str
    is_closed: bool
    used: int
    live: int
    copied: int
    old: int
    blank: int
    free: int

    @property
    def garbage(self) -> int:
        """The slots that were passed over: a program failed, or lost power."""
        return self.used - self.live - self.copied - self.old - self.blank


@dataclass(frozen=True)
class Flash:
    """The words of a flash, in their order."""

    words: tuple[int, ...]

    @cached_property
    def kind(self) -> Kind:
        """The kind of flash that has so many words."""
        return next(it for it in KINDS if it.words == len(self.words))

    def data(self) -> bytes:
        """The bytes of a file that has it."""
        return struct.pack(f">{len(self.words)}I", *self.words)

    def is_blank(self, at: int, size: int) -> bool:
        """Whether so many words are blank."""
        return self.words[at:at + size] == (BLANK,) * size

    def is_closed(self, block: int) -> bool:
        """Whether a block's mark isn't blank, whatever it is: those of the areas are behind their slots."""
        kind = self.kind
        at = kind.witness if block == len(kind.areas) else kind.slot(block, kind.slots)
        return not self.is_blank(at, MARK_WORDS)

    @cached_property
    def turn(self) -> int:
        """The turn is that of the open block behind a closed one in the ring A, B, witness."""
        closed = [self.is_closed(it) for it in range(3)]
        if all(closed) or not any(closed):
            raise NoLog(f"{'each' if all(closed) else 'no'} block of the flash is closed, so it has no turn")
        return next(it for it in range(3) if closed[it - 1] and not closed[it])

    @property
    def home(self) -> int:
        """The area that has the pages."""
        return 0 if self.turn == 0 else 1

    def page_in(self, at: int) -> int | None:
        """The page that a slot holds; None without the exact mark, or the number of a page."""
        number = self.words[at + NUMBER]
        is_marked = self.words[at + MARK_AT:at + MARK_AT + MARK_WORDS] == MARK
        return number if is_marked and number < PAGES else None

    def held(self, area: int, below: int | None = None) -> list[tuple[int, int]]:
        """The slots of an area that hold pages, or of its first slots, in order: the address of each, and its page."""
        slots = range(self.kind.slots if below is None else below)
        found = ((at, self.page_in(at)) for at in (self.kind.slot(area, it) for it in slots))
        return [(at, page) for at, page in found if page is not None]

    def last(self, area: int, below: int | None = None) -> dict[int, tuple[int, ...]]:
        """The words of each page that an area holds, or that its first slots do, by their last slot."""
        return {page: self.words[at:at + layout.PAGE_WORDS] for at, page in self.held(area, below)}

    def used(self, area: int) -> int:
        """The slots of an area up to the last one that isn't blank."""
        kind = self.kind
        slots = range(kind.slots, 0, -1)
        return next((it for it in slots if not self.is_blank(kind.slot(area, it - 1), SLOT_WORDS)), 0)

    def is_prepared(self) -> bool:
        """Whether a move to small sectors has erased those behind the sectors of its steps."""
        rear = range(STEPS, self.kind.sectors)
        return self.turn != 1 and all(self.is_blank(*self.kind.sector(1 - self.home, it)) for it in rear)

    @cached_property
    def steps(self) -> int:
        """The steps that have copied pages to small sectors, as a power-on finds them: what the other area holds behind
        is of a move before. It looks for none before a move is due."""
        free = self.kind.slots - self.used(self.home)
        if free > self.kind.lead or not self.is_prepared():
            return 0
        least = max(STEPS - free, 0)
        near = min(least + NEAR_STEPS, STEPS)
        numbers = (*range(near - 1, least - 1, -1), *range(near, STEPS))
        return next((it for it in numbers if self.are_copied(it)), 0)

    def are_copied(self, steps: int) -> bool:
        """Whether so many steps may have copied pages to small sectors: one page at most has an older copy there, and
        there is no later page that the area in use lacks."""
        copies = self.last(1 - self.home, self.kind.slots_before(steps))
        zeros, pages = (0,) * layout.PAGE_WORDS, range(STEP_PAGES * steps)
        if any(it >= len(pages) and it not in self.at_home for it in copies):
            return False
        return sum(copies.get(it, zeros) != self.page(it) for it in pages) <= 1

    def copied(self, area: int) -> int:
        """The pages that a move has copied to this area: in an open one that isn't home, those that read as at home. On
        small sectors the steps that are left have older ones."""
        if area == self.home or self.is_closed(area):
            return 0
        below = self.kind.slots_before(self.steps) if self.kind.has_small_sectors else None
        return sum(it == self.page(page) for page, it in self.last(area, below).items())

    def area(self, number: int) -> Area:
        """What an area holds. In the one that isn't home, pages are copied or old, and a move erases it sector by
        sector: slots before others are blank then. Small sectors have such slots behind their copies, at home too."""
        kind, is_home = self.kind, number == self.home
        used = self.used(number)
        filled = sum(not self.is_blank(kind.slot(number, it), SLOT_WORDS) for it in range(used))
        held, copied = self.held(number), self.copied(number)
        live = len({page for _, page in held}) if is_home else 0
        old, blank = len(held) - live - copied, used - filled if kind.has_small_sectors or not is_home else 0
        free = kind.slots - used
        return Area(NAMES[number], self.is_closed(number), used, live, copied, old, blank, free)

    @cached_property
    def areas(self) -> tuple[Area, ...]:
        """Both areas."""
        return tuple(map(self.area, range(len(NAMES))))

    def page(self, number: int) -> tuple[int, ...]:
        """The words of a page."""
        return self.pages[layout.PAGE_WORDS * number:layout.PAGE_WORDS * (number + 1)]

    @cached_property
    def at_home(self) -> dict[int, tuple[int, ...]]:
        """The words of each page that the home area holds."""
        return self.last(self.home)

    @cached_property
    def pages(self) -> tuple[int, ...]:
        """The words of all pages: those of the last slot of the home area that holds a page, else 0."""
        made = [0] * (layout.PAGE_WORDS * PAGES)
        for page, words in self.at_home.items():
            made[layout.PAGE_WORDS * page:layout.PAGE_WORDS * (page + 1)] = words
        return tuple(made)


def flash_of(data: bytes) -> Flash:
    """The flash that these bytes are, the most significant byte of each word first."""
    return Flash(struct.unpack(f">{len(data) // layout.WORD_BYTES}I", data))


def laid_out(words: tuple[int, ...], kind: Kind = LARGE) -> bytes:
    """The bytes of a flash that has the pages of a memory in turn 0, each in the slot of its number."""
    made = [BLANK] * kind.words
    for page in range(PAGES):
        slot = (*words[layout.PAGE_WORDS * page:layout.PAGE_WORDS * (page + 1)], page, 0, *MARK)
        made[SLOT_WORDS * page:SLOT_WORDS * (page + 1)] = slot
    made[kind.witness:] = MARK
    return struct.pack(f">{kind.words}I", *made)
