"""The size of a port's flash and its board: the crate and the header have the same numbers."""
from __future__ import annotations

import re
from collections.abc import Callable
from dataclasses import dataclass
from pathlib import Path

from ..unproving.kit import Failed

# docs/FLASH.md: a move copies 16 pages at a time
LEAST_PAGES, MOST_PAGES, STEP_PAGES = 1024, 4096, 16
# docs/FLASH.md: the slots at which a move begins, beside one for each sector, and for each step that copies if sectors
# aren't small
LEAD_SLOTS = 9
# docs/FLASH.md: an area takes each page once, with slots to pass over, and a slot has a number of 16 bits
SPARE_SLOTS = 256
LEAST_SLOTS, MOST_SLOTS = LEAST_PAGES + SPARE_SLOTS, 65_535
LEAST_WORDS, MOST_WORDS, USUAL_WORDS = 64, 1 << 24, 1 << 16
MOST_SECTORS = 32_767
# words of a slot and of a close mark, where the flash programs single words, and of each where it programs units
SLOT_WORDS, MARK_WORDS, FRAME_WORDS = 20, 2, 32
CRATE, HEADER = "crates/device_flash/src/slots.rt", "device/card_device.h"
# (a port has it if its sectors are small)
SMALL = "crates/device_flash/src/small.rt"


@dataclass(frozen=True)
class Size:
    """A number of the crate, which the header may have too."""

    what: str
    least: int
    most: int
    places: dict[str, re.Pattern[str]]


PAGES = Size("pages", LEAST_PAGES, MOST_PAGES, {CRATE: re.compile(r"(?<=pub const PAGES: u16 = )\d+(?=;)")})
SLOTS = Size("slots", LEAST_SLOTS, MOST_SLOTS, {
    CRATE: re.compile(r"(?<=pub const SLOTS: u16 = )\d+(?=;)"),
    HEADER: re.compile(r"(?<=\bFLASH_SLOTS = )\d+(?=,)"),
})
SECTOR_WORDS = Size("words of a sector", LEAST_WORDS, MOST_WORDS, {
    CRATE: re.compile(r"(?<=pub const SECTOR_WORDS: u32 = )\d+(?=;)"),
    HEADER: re.compile(r"(?<=\bFLASH_SECTOR_WORDS = )\d+(?=,)"),
})
# (a port over a flash that programs single words has it in the header alone)
UNIT = Size("words of a unit", 1, 8, {
    CRATE: re.compile(r"(?<=pub const UNIT: u32 = )\d+(?=;)"),
    HEADER: re.compile(r"(?<=\bFLASH_UNIT_WORDS = )\d+(?=,)"),
})

# (and a port without spare sectors has their number in the header alone)
SPARE_SECTORS = Size("spare sectors", 1, 65_535, {
    CRATE: re.compile(r"(?<=pub const SPARES: u16 = )\d+(?=;)"),
    HEADER: re.compile(r"(?<=\bFLASH_SPARES = )\d+(?=,)"),
})


def set_size(port: Path, size: Size, given: int) -> None:
    """Gives a port another number."""
    for place, number in size.places.items():
        text = (port / place).read_text(encoding="utf-8")
        made, count = number.subn(str(given), text)
        assert count == 1, place
        (port / place).write_text(made, encoding="utf-8")


def check_size(port: Path, size: Size) -> int:
    """Refuses a port whose crate and header differ in a number; that number."""
    found = {place: it.findall((port / place).read_text(encoding="utf-8")) for place, it in size.places.items()}
    for place, numbers in found.items():
        if len(numbers) != 1 or not size.least <= int(numbers[0]) <= size.most:
            raise Failed(f"{port / place} has no number of {size.what} from {size.least:,} to {size.most:,}")
    if len({it for numbers in found.values() for it in numbers}) > 1:
        told = ", ".join(f"{numbers[0]} in {place}" for place, numbers in found.items())
        raise Failed(f"{port} has two numbers of {size.what}: {told}")
    return int(found[CRATE][0])


def why_unfit(pages: int, slots: int) -> str | None:
    """Why a board can't have so many pages in areas of so many slots, if so."""
    if pages % STEP_PAGES:
        return f"{pages} pages are no multiple of {STEP_PAGES}"
    if slots < pages + SPARE_SLOTS:
        return f"with {pages:,} pages an area has at least {pages + SPARE_SLOTS:,} slots"
    return None


def sectors_of(slots: int, sector_words: int, unit: int | None = None, spares: int | None = None) -> int:
    """The sectors of an area. Program units and spare sectors let a sector have whole slots."""
    if unit:
        return -(-(slots + 1) // (sector_words // FRAME_WORDS))
    words = sector_words // SLOT_WORDS * SLOT_WORDS if spares else sector_words
    return -(-(SLOT_WORDS * slots + MARK_WORDS) // words)


def why_too_many(sectors: int) -> str | None:
    """Why an area can't have so many sectors, if so."""
    return f"{sectors:,} sectors of an area are more than {MOST_SECTORS:,}" if sectors > MOST_SECTORS else None


def least_in_pace(pages: int, slots: int, sectors: Callable[[int], int]) -> int:
    """The least number of slots, these or more, with which a move keeps each write short (docs/FLASH.md, "The pause").
    An area of so many slots has so many sectors."""
    while (least := sectors(slots) + pages + pages // 8 + LEAD_SLOTS) > slots:
        slots = least
    return slots


def slots_in(sectors: int, sector_words: int, unit: int | None = None, spares: int | None = None) -> int:
    """The slots of an area that begin in its first sectors, so many."""
    if unit or spares:
        return sectors * (sector_words // (FRAME_WORDS if unit else SLOT_WORDS))
    return -(-sectors * sector_words // SLOT_WORDS)


def are_small(pages: int, slots: int, sector_words: int, unit: int | None = None, spares: int | None = None) -> bool:
    """Whether an area of so many slots has small sectors: one for each step of a move and at least one more, and behind
    those of the steps, and behind the copies of a renewal, the slots at which the next move begins (docs/FLASH.md,
    "Small sectors")."""
    steps, sectors = pages // STEP_PAGES, sectors_of(slots, sector_words, unit, spares)
    first, lead = slots_in(steps, sector_words, unit, spares), sectors + LEAD_SLOTS
    return sectors > steps and slots > first + lead and slots >= pages + SPARE_SLOTS + lead


def least_small(pages: int, sector_words: int, unit: int | None = None, spares: int | None = None) -> int:
    """The least number of slots of an area with small sectors."""
    slots = max(pages + SPARE_SLOTS, slots_in(pages // STEP_PAGES, sector_words, unit, spares))
    while not are_small(pages, slots, sector_words, unit, spares):
        slots += 1
    return slots


def why_not_small(
    pages: int, slots: int, sector_words: int, unit: int | None = None, spares: int | None = None,
) -> str | None:
    """Why an area has no small sectors, if so. A step puts up to 17 records into its sector, and slots may straddle its
    ends."""
    what, words = ("with units small", FRAME_WORDS) if unit else ("small", SLOT_WORDS)
    if sector_words < words * (STEP_PAGES + 2):
        return f"--sector-words {sector_words}: {what} sectors have at least {words * (STEP_PAGES + 2)} words"
    if (least := least_small(pages, sector_words, unit, spares)) > MOST_SLOTS:
        return f"--sector-words {sector_words}: an area of {pages:,} pages has too many slots for small sectors"
    if slots < least:
        return f"with small sectors of {sector_words:,} words an area has at least {least:,} slots"
    return None


def why_spares_unfit(slots: int, sector_words: int, spares: int, unit: int | None = None) -> str | None:
    """Why a flash can't have so many spare sectors of this size, if so. Sectors have numbers of 16 bits. The words
    and those of the map behind them are numbers of the header, which have 31."""
    words = FRAME_WORDS if unit else SLOT_WORDS
    if sector_words // words > MOST_SLOTS:
        return f"with spare sectors a sector has at most {MOST_SLOTS * words + words - 1:,} words"
    sectors = 2 * sectors_of(slots, sector_words, unit, spares) + 1 + spares
    if sectors >= 1 << 16 or sectors * sector_words + words * spares >= 1 << 31:
        return f"{spares:,} spare sectors of {sector_words:,} words are too many: addresses have 31 bits, numbers 16"
    return None


def check_slots(port: Path) -> None:
    """Refuses a port whose crate and header differ. One that isn't over a flash has no slots."""
    if (port / CRATE).is_file():
        pages, slots, sector_words = (check_size(port, size) for size in (PAGES, SLOTS, SECTOR_WORDS))
        why, text = why_unfit(pages, slots), (port / CRATE).read_text(encoding="utf-8")
        unit, spares = (check_size(port, it) if it.places[CRATE].search(text) else None for it in (UNIT, SPARE_SECTORS))
        if spares:
            why = why or why_spares_unfit(slots, sector_words, spares, unit)
        if (port / SMALL).is_file():
            why = why or why_not_small(pages, slots, sector_words, unit, spares)
        if why:
            raise Failed(f"{port / CRATE}: {why}")
