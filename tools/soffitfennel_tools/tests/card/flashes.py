"""Flash images of both kinds that are built by hand, and what tools/card says of each."""
from __future__ import annotations

import json
import random
import struct
from pathlib import Path

from ...card_image.flash import BLANK, KINDS, LARGE, MARK, PAGES, SLOT_WORDS, SMALL, Kind

from .checks import Checks
from .images import data_of, factory
from .showing import FACTORY, card

PAGE_WORDS = 16
CLOSED = (0x12345678, BLANK)
# of small sectors: the first slot behind the sectors of the steps, and how many these are
FIRST_BEHIND, FROM_SECTOR = 1639, 64
# pages of the third step, which has sector 2
THIRD_STEP = (32, 33)
# a page of a later step, all zeros
LATER = 50


def blank(kind: Kind) -> list[int]:
    """A flash that is erased."""
    return [BLANK] * kind.words


def slot(page: int, words: list[int]) -> list[int]:
    """A slot that holds a page."""
    return [*words, page, 0, *MARK]


def put(flash: list[int], at: int, words: list[int] | tuple[int, ...]) -> None:
    """Puts words there."""
    flash[at:at + len(words)] = words


def close(kind: Kind, flash: list[int], *blocks: int) -> None:
    """Closes blocks: area A, area B, the witness."""
    for it in blocks:
        put(flash, kind.witness if it == 2 else kind.slot(it, kind.slots), MARK)


def fill(flash: list[int], base: int, memory: list[int], pages: list[int]) -> None:
    """Puts pages of a memory into slots, in this order."""
    for at, page in enumerate(pages):
        put(flash, base + SLOT_WORDS * at, slot(page, memory[PAGE_WORDS * page:PAGE_WORDS * (page + 1)]))


def spread(kind: Kind, flash: list[int], area: int, memory: list[int], more: int) -> None:
    """Puts the pages of a memory into an area as a move to small sectors does: 16 into the first slots of each sector.
    Behind those of the steps there are so many more records, of a page of zeros."""
    for step in range(PAGES // 16):
        # (a slot that begins in the sector before is none of it)
        first = kind.slot(area, (512 * step + 19) // 20)
        fill(flash, first, memory, list(range(16 * step, 16 * step + 16)))
    fill(flash, kind.slot(area, FIRST_BEHIND), memory, [40] * more)


def first(kind: Kind, memory: list[int]) -> list[int]:
    """Turn 0: old copies of some pages in front, a slot whose mark is torn, and one whose words are."""
    flash, old = blank(kind), [0] * len(memory)
    fill(flash, 0, old, [1, 1, 1023])
    put(flash, 3 * SLOT_WORDS, [*slot(0, old[:PAGE_WORDS])[:18], MARK[0], 0])
    put(flash, 4 * SLOT_WORDS, [0xABCDEF01] * 5)
    fill(flash, 5 * SLOT_WORDS, memory, list(range(PAGES)))
    put(flash, kind.witness, CLOSED)
    return flash


def second(kind: Kind, memory: list[int]) -> list[int]:
    """Turn 1: the pages are in area B, backwards; area A is closed and has others, the witness is garbage."""
    flash = blank(kind)
    fill(flash, 0, [0] * len(memory), list(range(PAGES)))
    put(flash, kind.slot(0, kind.slots), CLOSED)
    fill(flash, kind.areas[1], memory, list(range(PAGES - 1, -1, -1)))
    put(flash, kind.witness, (5, 6))
    return flash


def third(kind: Kind, memory: list[int]) -> list[int]:
    """Turn 2: the pages are in area B, which is closed by garbage; area A is noise, but for its mark."""
    chance, flash = random.Random(1), blank(kind)
    put(flash, 0, [chance.getrandbits(32) for _ in range(kind.area_words - 2)])
    fill(flash, kind.areas[1], memory, list(range(PAGES)))
    put(flash, kind.slot(1, kind.slots), (BLANK, 0))
    return flash


def erased(kind: Kind, memory: list[int]) -> list[int]:
    """A move to area A, ten sectors of which are erased. They had 251 slots."""
    flash = blank(kind)
    fill(flash, 0, [0] * len(memory), list(range(PAGES)))
    put(flash, 0, [BLANK] * (10 * 502))
    fill(flash, kind.areas[1], memory, list(range(PAGES)))
    close(kind, flash, 0, 1)
    return flash


def copied(kind: Kind, memory: list[int]) -> list[int]:
    """A move to area A with two steps of 16 copied pages, and before them an older copy and a torn record."""
    flash = blank(kind)
    fill(flash, 0, [1] * len(memory), [3])
    put(flash, SLOT_WORDS, [0xABCDEF01] * 5)
    fill(flash, 2 * SLOT_WORDS, memory, list(range(32)))
    fill(flash, kind.areas[1], memory, list(range(PAGES)))
    close(kind, flash, 1)
    return flash


def cleared(kind: Kind, memory: list[int]) -> list[int]:
    """A move to area A of small sectors, which was full. Of its last sectors three are erased, from the 65th on: they
    had slots 1,639 to 1,714 whole. The pages in area B are where a move has put them, with 323 records behind."""
    flash = blank(kind)
    spread(kind, flash, 0, [0] * len(memory), 409)
    put(flash, 512 * FROM_SECTOR, [BLANK] * (3 * 512))
    spread(kind, flash, 1, memory, 323)
    close(kind, flash, 0, 1)
    return flash


def stepped(kind: Kind, memory: list[int]) -> list[int]:
    """A move to area A of small sectors whose last sectors are erased. Two steps have copied pages to theirs. In the
    other sectors are the copies of a move before, and only two of these read otherwise than at home, in that of the
    third step. Area B has 62 free slots, one for each step that is left."""
    flash, old = blank(kind), memory[:]
    for page in THIRD_STEP:
        put(old, PAGE_WORDS * page, [1] * PAGE_WORDS)
    spread(kind, flash, 0, old, 0)
    spread(kind, flash, 1, memory, 347)
    close(kind, flash, 1)
    return flash


def later(kind: Kind, memory: list[int]) -> list[int]:
    """The move of `stepped`, whose second sector has an old copy of a later page too."""
    flash = stepped(kind, memory)
    put(flash, kind.slot(0, kind.slots_before(2) - 1), slot(LATER, [1] * PAGE_WORDS))
    return flash


def lacking(kind: Kind, memory: list[int]) -> list[int]:
    """The same, but area B lacks that page, which is all zeros. So no step counts."""
    flash = later(kind, memory)
    put(flash, kind.slot(1, kind.first_slot(LATER // 16) + LATER % 16) + 16, [PAGES])
    return flash


def half_erased(kind: Kind, memory: list[int]) -> list[int]:
    """The move of `stepped`, but a torn erase left a blank mark and no blank sector. So no copy counts."""
    flash = stepped(kind, memory)
    put(flash, kind.slot(0, kind.slots - 1), [5])
    return flash


def rested(kind: Kind, memory: list[int]) -> list[int]:
    """The move of `stepped`, but none is due: area B has 90 free slots. So no power-on looks for copies."""
    flash = stepped(kind, memory)
    put(flash, kind.slot(1, kind.slots - 90), [BLANK] * (28 * SLOT_WORDS))
    return flash


def data(kind: Kind, flash: list[int]) -> bytes:
    """The bytes of its file."""
    return struct.pack(f">{kind.words}I", *flash)


HEAD = "flash    2 areas of 1,280 slots, turn {}: the pages are in area {}"
SMALL_HEAD = "flash    2 areas of 2,048 slots, small sectors, turn {}: the pages are in area {}"
SHOWN = (
    (LARGE, first, [
        HEAD.format(0, "A"), "area A   open: 1,029 slots used (1,024 live pages, 3 old, 2 garbage), 251 free",
        "area B   open: 0 slots used (0 live pages, 0 old, 0 garbage), 1,280 free", "witness  closed",
    ]),
    (LARGE, second, [
        HEAD.format(1, "B"), "area A   closed: 1,024 slots used (0 live pages, 1,024 old, 0 garbage), 256 free",
        "area B   open: 1,024 slots used (1,024 live pages, 0 old, 0 garbage), 256 free", "witness  closed",
    ]),
    (LARGE, third, [
        HEAD.format(2, "B"), "area A   open: 1,280 slots used (0 live pages, 0 old, 1,280 garbage), 0 free",
        "area B   closed: 1,024 slots used (1,024 live pages, 0 old, 0 garbage), 256 free", "witness  open",
    ]),
    (LARGE, erased, [
        HEAD.format(2, "B"),
        "area A   closed: 1,024 slots used (0 live pages, 773 old, 0 garbage, 251 blank), 256 free",
        "area B   closed: 1,024 slots used (1,024 live pages, 0 old, 0 garbage), 256 free", "witness  open",
    ]),
    (LARGE, copied, [
        HEAD.format(2, "B"), "area A   open: 34 slots used (0 live pages, 32 copied, 1 old, 1 garbage), 1,246 free",
        "area B   closed: 1,024 slots used (1,024 live pages, 0 old, 0 garbage), 256 free", "witness  open",
    ]),
    (SMALL, first, [
        SMALL_HEAD.format(0, "A"), "area A   open: 1,029 slots used (1,024 live pages, 3 old, 2 garbage), 1,019 free",
        "area B   open: 0 slots used (0 live pages, 0 old, 0 garbage), 2,048 free", "witness  closed",
    ]),
    (SMALL, second, [
        SMALL_HEAD.format(1, "B"),
        "area A   closed: 1,024 slots used (0 live pages, 1,024 old, 0 garbage), 1,024 free",
        "area B   open: 1,024 slots used (1,024 live pages, 0 old, 0 garbage), 1,024 free", "witness  closed",
    ]),
    (SMALL, third, [
        SMALL_HEAD.format(2, "B"), "area A   open: 2,048 slots used (0 live pages, 0 old, 2,048 garbage), 0 free",
        "area B   closed: 1,024 slots used (1,024 live pages, 0 old, 0 garbage), 1,024 free", "witness  open",
    ]),
    (SMALL, cleared, [
        SMALL_HEAD.format(2, "B"),
        "area A   closed: 2,048 slots used (0 live pages, 1,357 old, 0 garbage, 691 blank), 0 free",
        "area B   closed: 1,962 slots used (1,024 live pages, 323 old, 0 garbage, 615 blank), 86 free", "witness  open",
    ]),
    (SMALL, stepped, [
        SMALL_HEAD.format(2, "B"),
        "area A   open: 1,629 slots used (0 live pages, 32 copied, 992 old, 0 garbage, 605 blank), 419 free",
        "area B   closed: 1,986 slots used (1,024 live pages, 347 old, 0 garbage, 615 blank), 62 free", "witness  open",
    ]),
    (SMALL, later, [
        SMALL_HEAD.format(2, "B"),
        "area A   open: 1,629 slots used (0 live pages, 32 copied, 993 old, 0 garbage, 604 blank), 419 free",
        "area B   closed: 1,986 slots used (1,024 live pages, 347 old, 0 garbage, 615 blank), 62 free", "witness  open",
    ]),
    (SMALL, lacking, [
        SMALL_HEAD.format(2, "B"),
        "area A   open: 1,629 slots used (0 live pages, 1,025 old, 0 garbage, 604 blank), 419 free",
        "area B   closed: 1,986 slots used (1,023 live pages, 347 old, 1 garbage, 615 blank), 62 free", "witness  open",
    ]),
    (SMALL, half_erased, [
        SMALL_HEAD.format(2, "B"),
        "area A   open: 2,048 slots used (0 live pages, 1,024 old, 1 garbage, 1,023 blank), 0 free",
        "area B   closed: 1,986 slots used (1,024 live pages, 347 old, 0 garbage, 615 blank), 62 free", "witness  open",
    ]),
    (SMALL, rested, [
        SMALL_HEAD.format(2, "B"),
        "area A   open: 1,629 slots used (0 live pages, 1,024 old, 0 garbage, 605 blank), 419 free",
        "area B   closed: 1,958 slots used (1,024 live pages, 319 old, 0 garbage, 615 blank), 90 free", "witness  open",
    ]),
)


def of_pages(checks: Checks, image: Path) -> None:
    """The card of a flash in each turn, and in a move, is that of its pages."""
    memory = image.with_name("memory.image")
    memory.write_bytes(data_of(factory()))
    for kind, build, lines in SHOWN:
        image.write_bytes(data(kind, build(kind, factory())))
        checks.compare(f"{kind.name}, {build.__name__}", (0, [*lines, *FACTORY], ""), card(image))
    checks.compare("no difference to the card of a memory", (0, [], ""), card("--diff", image, memory))


def of_programs(checks: Checks, image: Path) -> None:
    """What programs get of a flash of each kind."""
    keys = ("name", "is_closed", "used", "live", "copied", "old", "blank", "free", "garbage")
    for kind, build, slots, areas in (
        (LARGE, copied, 1280, (("A", False, 34, 0, 32, 1, 0, 1246, 1), ("B", True, 1024, 1024, 0, 0, 0, 256, 0))),
        (SMALL, stepped, 2048,
         (("A", False, 1629, 0, 32, 992, 605, 419, 0), ("B", True, 1986, 1024, 0, 347, 615, 62, 0))),
    ):
        image.write_bytes(data(kind, build(kind, factory())))
        wanted = {"has_small_sectors": kind == SMALL, "turn": 2, "home": "B", "slots": slots,
                  "areas": [dict(zip(keys, it)) for it in areas], "is_witness_closed": False}
        _, lines, _ = card("--json", image)
        checks.compare(f"{kind.name}, for programs", wanted, json.loads("\n".join(lines))["flash"])


def of_others(checks: Checks, image: Path) -> None:
    """A flash with garbage in its home area, without a turn, and files that are none."""
    for kind in KINDS:
        flash = first(kind, factory())
        put(flash, 5 * SLOT_WORDS + 16, (PAGES,))
        image.write_bytes(data(kind, flash))
        status, lines, _ = card(image)
        checks.compare("page 0 is lost", (1, True), (status, any(it.startswith("rule 1") for it in lines)))
        checks.compare("its slot is garbage", True, "1,023 live pages, 3 old, 3 garbage" in "".join(lines[1:2]))
        for closed, why in ((False, "no block of the flash is closed"), (True, "each block of the flash is closed")):
            flash = blank(kind)
            close(kind, flash, *(range(3) if closed else ()))
            image.write_bytes(data(kind, flash))
            checks.compare(why, (2, [], f"card: {image}: {why}, so it has no turn\n"), card(image))
    for size in (204_823, 204_825, 204_828, 327_703, 327_705, 400_000, 0):
        image.write_bytes(bytes(size))
        status, lines, said = card(image)
        sizes = "a flash image has 204,824 bytes, or 327,704 with small sectors\n"
        is_said = said.startswith(f"card: {image} has {size:,} bytes; ") and said.endswith(sizes)
        checks.compare(f"a file of {size} bytes", (2, [], True), (status, lines, is_said))


def check(checks: Checks, folder: Path) -> None:
    """All of them."""
    of_pages(checks, folder / "flash.image")
    of_programs(checks, folder / "flash.image")
    of_others(checks, folder / "flash.image")
