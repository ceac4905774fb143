"""The moves of the log on small sectors, and what a power-on finds of them (docs/FLASH.md, "Small sectors").

These are the writes of a session behind the factory card, by their numbers. The card's P = 1,024 pages fill as many of
the S = 2,048 slots of area A. A write takes a slot, and from N + 9 = 89 free ones on a step.

| writes | what their step does |
|---|---|
| 1 to 935 | nothing, with 1,024 to 90 free slots |
| 936 to 951 | erases the next of the last 16 sectors of area B, which are blank on a new flash |
| 952 to 1015 | erases the next of the first 64, and copies 16 pages there; the last of these passes the turn to B |
| 1016 to 1334 | nothing, with 408 to 90 free slots |
| 1335 | erases the witness, and closes B |
| 1336 to 1351 | erases the next of the last 16 sectors of A, which is full of records |
| 1352 to 1415 | erases the next of the first 64, and copies 16 pages there; the last of these passes the turn to A |

Behind the first move the slots of the first 64 sectors are taken, copies or not: the next one is slot 1,639, and write
1015 takes it. So 2,048 - 1,640 = 408 slots are free.

CREATE makes writes 1 to 10, and each UPDATE four: a pair in page 74 of the journal, the gate in page 73, the word in
page 129, the gate. If a write is of a page that has a copy, the next step puts that page into its sector too, before
its own 16."""
from __future__ import annotations

from collections.abc import Iterable
from pathlib import Path
from tempfile import TemporaryDirectory

from ...card_image.flash import PAGES, SMALL, STEP_PAGES, STEPS, Flash
from ...card_image.layout import GATE_PAGE
from ...card_image.layout import JOURNAL_PAGE as PAIR_PAGE
from ..checks import Checks
from .bench import COMPLEMENTS, SEED, FlashBench
from .moves import AGAIN, COPIED, OTHER, Moves, pages_of, session, with_pair

# The updates of a session up to write 930; up to write 942, the seventh one that erases B; up to write 1342, the
# seventh one that erases A; up to write 1350, the 15th of 16; up to write 1354, the third one that copies to A; and up
# to write 1370, the 19th one.
TO_THE_MOVE, TO_ERASES_OF_B, TO_ERASES_OF_A, TO_THE_LAST_ERASE_OF_A = 230, 233, 333, 335
TO_COPIES, TO_MORE_COPIES = 336, 340
ERASED, COPIED_FIRST, MORE_COPIED = 7, 3, 19
# the first step from the second one on whose pages, 64 to 79, are not all zeros: on this card pages 4 to 64 are those
# of entries without a file
PIN_STEP = 4
# the slots in use behind a move: those of the first 64 sectors, and that of the write
MOVED = 1_639 + 1
# the operations of a write that erases, of one that erases and copies, and of one that copies an older page too
ERASES, COPIES, COPIES_MORE = 1 + 2, 1 + 2 * STEP_PAGES + 2, 1 + 2 + 2 * STEP_PAGES + 2
# Without a Fault a write begins at most 38 operations: those, and the close mark of a move's last step.
MOST = COPIES_MORE + 1
# The operations at which a write that copies loses power: the erase, the older page, a page, the last page but one, the
# last page, and the record of the write.
TORN = (0, 1, 2, 16, 32, 33, 34, 35, 36)
# the sessions of one write, and how many of them are between two looks at the flash
SINGLE_WRITES, BETWEEN = 1_536, 64
# Two of three sessions of one write lose power, each five operations behind that of the one before.
LOST, LOST_EVERY, LOST_APART = 100, 3, 5


def pages_in(flash: Flash, area: int, step: int) -> list[int]:
    """The pages in the slots of a step's sector, in order."""
    first, end = flash.kind.first_slot(step), flash.kind.slots_before(step + 1)
    slots = (flash.page_in(flash.kind.slot(area, it)) for it in range(first, end))
    return [it for it in slots if it is not None]


def blank_behind(flash: Flash, area: int) -> list[int]:
    """The sectors of an area that are blank, of those behind the steps' sectors."""
    return [it for it in range(STEPS, flash.kind.sectors) if flash.is_blank(*flash.kind.sector(area, it))]


def first_of_last(erased: int) -> list[int]:
    """The numbers of so many of the last sectors."""
    return [STEPS + it for it in range(erased)]


def check_erases(moves: Moves) -> None:
    """Behind a power-on the erased sectors are found: a write erases the next one. One whose erase lost power is erased
    again. Those of the steps stay as they are."""
    same = moves.tests.same
    bench = moves.bench("erases", session(TO_ERASES_OF_A))
    old = bench.flash()
    same((old.turn, blank_behind(old, 0)), (2, first_of_last(ERASED)), "seven sectors are erased")
    bench.run("on\n" * 3)
    same(bench.flash(), old, "power-ons only read")
    for mask, erased in (("0000", ERASED), ("0001", ERASED + 1), ("0001", ERASED + 2)):
        moves.tests.check(bench.has_operations(AGAIN, ERASES), f"an erase, a record and a mark: {mask}, {erased}")
        bench.cut(AGAIN, mask)
        new, behind = bench.flash(), SMALL.sector(0, STEPS + erased + (mask == "0000"))[0]
        same(blank_behind(new, 0), first_of_last(erased), f"the blank sectors: {mask}, {erased}")
        for part in (slice(0, SMALL.sector(0, STEPS)[0]), slice(behind, SMALL.area_words)):
            same(new.words[part], old.words[part], f"the others stay: {mask}, {erased}, {part}")


def check_copies(moves: Moves) -> None:
    """Behind a power-on the copies are found, and the page whose copy is older: a write puts that page into its sector,
    and the next pages. With one write for each power-on a move takes as many writes as in one session."""
    same = moves.tests.same
    bench = moves.bench("copies", session(TO_MORE_COPIES))
    same((bench.flash().steps, bench.flash().areas[0].copied), (MORE_COPIED, STEP_PAGES * MORE_COPIED - 1), "19 steps")
    for step, line, older in ((MORE_COPIED, OTHER, GATE_PAGE), (MORE_COPIED + 1, AGAIN, PAIR_PAGE)):
        moves.tests.check(bench.has_operations(line, COPIES_MORE), f"an older page and 16 others are copied: {step}")
        bench.cut(line, "0001")
        same(bench.flash().steps, step + 1, f"tools/card finds step {step}")
        same(pages_in(bench.flash(), 0, step), [older, *pages_of(step)], f"the pages in the sector of step {step}")
    for step in range(MORE_COPIED + 2, STEPS - 1):
        bench.cut((OTHER, AGAIN)[step % 2], "0001")
    same((bench.flash().turn, bench.flash().steps), (2, STEPS - 1), "one step is left")
    moves.tests.check(bench.has_operations(AGAIN, MOST), "the last step copies, and closes a block")
    bench.cut(AGAIN, "0001")
    area = bench.flash().areas[0]
    same((bench.flash().turn, area.used, area.live, area.garbage), (0, MOVED, PAGES, 0), "area A has all pages")


def check_torn_copies(moves: Moves) -> None:
    """A write loses power at one of its 37 operations: it erases a sector, copies the gate and 16 pages, and writes a
    pair. All words are old, and power loss takes nothing back: the next write takes the step again. Behind 15 of the 16
    copies, at operations 33 and 34, the step is done and the last page has an older copy. In the record of the write,
    operations 35 and 36, the step is done, and no copy is older."""
    same = moves.tests.same
    bench = moves.bench("torn", session(TO_MORE_COPIES))
    old, image = bench.flash(), bench.image.read_bytes()
    for operation in TORN:
        bench.cut(OTHER, f"{2 * operation:04X}")
        new = bench.flash()
        same(new.pages == old.pages, True, f"all words are old behind operation {operation}")
        same(new.steps, MORE_COPIED + (operation >= 33), f"tools/card finds the steps behind operation {operation}")
        before = slice(0, SMALL.sector(0, MORE_COPIED)[0])
        same(new.words[before] == old.words[before], True, f"copies stay behind operation {operation}")
        wanted = COPIES_MORE if operation < 35 else COPIES
        what = f"the write behind a power loss at operation {operation}"
        moves.tests.check(bench.has_operations(OTHER, wanted), what)
        bench.image.write_bytes(image)


def check_new_flash(moves: Moves) -> None:
    """A new flash has nothing to erase. So behind a power-on in the first move the first pages are copied. The steps
    whose pages are all zeros count as taken too."""
    same = moves.tests.same
    bench = moves.bench("new", session(TO_ERASES_OF_B))
    same((bench.flash().turn, blank_behind(bench.flash(), 1)), (0, first_of_last(16)), "area B is blank")
    moves.tests.check(bench.has_operations(AGAIN, COPIES), "16 pages are copied, a record and a mark")
    bench.cut(AGAIN, "0001")
    same((pages_in(bench.flash(), 1, 0), bench.flash().steps), (pages_of(0), PIN_STEP), "they are the first ones")


def check_zeros(moves: Moves) -> None:
    """A page of zeros reads the same in an area without it. So behind a power-on a step that has only such pages is not
    taken: the fourth one, behind three in one session."""
    same = moves.tests.same
    bench = moves.bench("zeros", session(TO_COPIES))
    same([pages_in(bench.flash(), 0, it) for it in range(COPIED_FIRST)][COPIED:], [pages_of(COPIED)], "three steps")
    moves.tests.check(bench.has_operations(AGAIN, COPIES), "16 pages are copied, a record and a mark")
    bench.cut(AGAIN, "0001")
    same(pages_in(bench.flash(), 0, PIN_STEP), pages_of(PIN_STEP), "pages 48 to 63 are not copied")


def check_pace(moves: Moves) -> None:
    """Sessions of one write each, through several moves. No write has more than 38 operations, so a power loss at
    operation 38, counted from 0, comes behind each, and leaves what a power loss behind the write leaves. At operation
    37 it doesn't."""
    found: dict[str, list[Flash]] = {}
    for mask in ("0001", f"{2 * MOST:04X}", f"{2 * (MOST - 1):04X}"):
        bench = moves.bench(f"pace {mask}", [*session(0), "off"])
        lines = "".join(f"cut 1 {mask}\non\n{it}\n" for it in (AGAIN, OTHER)) * (BETWEEN // 2)
        found[mask] = []
        for _ in range(SINGLE_WRITES // BETWEEN):
            bench.run(lines)
            found[mask].append(bench.flash())
    whole, most, less = found.values()
    moves.tests.same({it.turn for it in whole}, {0, 1, 2}, "sessions of one write pass all turns")
    moves.tests.check(most == whole, f"no write begins more than {MOST} programs and erases")
    moves.tests.check(less != whole, f"some write begins {MOST}")


def lose(benches: Iterable[FlashBench], number: int) -> str:
    """Two sessions of one write lose power at an operation, and one behind its write, or with another bench at
    operation 38. Returns the last line."""
    lines = (AGAIN, OTHER, (AGAIN, OTHER)[number % 2])
    for bench, mask in zip(benches, ("0001", f"{2 * MOST:04X}")):
        bench.seed = (COMPLEMENTS, SEED)[number % 2]
        places = [(LOST_EVERY * number + it) * LOST_APART % MOST for it in range(2)]
        masks = [*(f"{2 * it:04X}" for it in places), mask]
        bench.run("".join(f"cut 1 {it}\non\n{line}\n" for it, line in zip(masks, lines)))
    return lines[-1]


def check_losses(moves: Moves) -> None:
    """Sessions of one write each, through a move, where two of three lose power at an operation. However many did, no
    other session has more than 38 operations, and it has changed its pair, and no other word."""
    benches = [moves.bench(f"losses {it}", [*session(TO_THE_MOVE), "off"]) for it in range(2)]
    pairs = {it: benches[0].left(it, "0001").page(PAIR_PAGE) for it in (AGAIN, OTHER)}
    before, longer, torn, turns = benches[0].flash(), [], [], set()
    for number in range(LOST):
        line = lose(benches, number)
        after = benches[0].flash()
        if after.data() != benches[1].image.read_bytes():
            longer.append(number)
        if after.pages != with_pair(before.pages, pairs[line]):
            torn.append(number)
        turns.add(after.turn)
        before = after
    moves.tests.same(turns, {0, 1}, "sessions that lose power pass the turn")
    moves.tests.same(longer, [], f"no other session begins more than {MOST} programs and erases")
    moves.tests.same(torn, [], "its words are the new ones, and the others old")


def check(tests: Checks, flash: str) -> None:
    """All of them."""
    parts = (check_erases, check_copies, check_torn_copies, check_new_flash, check_zeros, check_pace, check_losses)
    for part in parts:
        with TemporaryDirectory(prefix="moves-") as folder:
            part(Moves(tests, flash, Path(folder), SMALL))
