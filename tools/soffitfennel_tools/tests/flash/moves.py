"""The moves of the log on a flash, and what a power-on finds of them (docs/FLASH.md, "Layout" and "The pause").

These are the writes of a session behind the factory card, by their numbers. The card's P = 1,024 pages fill as many of
the S = 1,280 slots of area A. A write takes a slot, and from N + P/16 + 9 = 124 free ones on a step.

| writes | what their step does |
|---|---|
| 1 to 132 | nothing, with 256 to 125 free slots |
| 133 to 183 | erases the next of the 51 sectors of area B, which are blank on a new flash |
| 184 to 247 | copies the next 16 pages to B; the last of these passes the turn to B |
| 248 to 320 | nothing, with 197 to 125 free slots |
| 321 | erases the witness, and closes B |
| 322 to 372 | erases the next sector of A, which is full of records |
| 373 to 436 | copies the next 16 pages to A; the last of these passes the turn to A |

CREATE makes writes 1 to 10, and each UPDATE four: a pair in page 74 of the journal, the gate in page 73, the word in
page 129, the gate. If a write is of a page that has a copy, the next write copies that page again before its step.
Pages 73 and 74 have copies from write 188 on, which copies pages 64 to 79, and page 129 from write 192 on. So behind
writes 188 to 246, all but the word of write 189, a page is copied again: 58 records in B beside the 1,024 copies. Write
247 is in B alone. Then 1,280 - 1,024 - 58 - 1 = 197 slots are free. In the second move these are writes 378 to 435, as
write 377 is a word, and write 436 is in A alone.

Behind a power-on the log finds that page by reading: the first one that differs from its copy. So a write that leaves
its page as it was has no copy behind it."""
from __future__ import annotations

from collections.abc import Iterable, Iterator
from dataclasses import dataclass
from pathlib import Path
from tempfile import TemporaryDirectory

from ...card_image.flash import LARGE, PAGES, STEP_PAGES, STEPS, Flash, Kind
from ...card_image.layout import GATE_PAGE, PAGE_WORDS
from ...card_image.layout import JOURNAL_PAGE as PAIR_PAGE
from ..checks import Checks
from .bench import COMPLEMENTS, SEED, FlashBench

CREATE = "apdu 00E000001962178202412183026F018801088002000A8A01058C03030000"
SELECT, UPDATE = "apdu 00A4000C026F01", "apdu 00D600000401020304"
# an update that leaves the bytes of the new file as they are, and the lines of an update behind a power-on
SAME, AGAIN = UPDATE.replace("01020304", "FFFFFFFF"), f"{SELECT}\n{UPDATE}"
# those of an update of the file's next word: its pair has another address
OTHER = AGAIN.replace("D6000004", "D6000404")
# The updates of a session up to write 134, the second one that erases B; up to write 326, the fifth one that erases A;
# up to write 374, the second one that copies to A; and up to write 386, the 14th one.
TO_ERASES_OF_B, TO_ERASES_OF_A, TO_COPIES, TO_MORE_COPIES = 31, 79, 91, 94
ERASED, COPIED, MORE_COPIED = 5, 2, 14
# the page of PIN 1: on this card pages 32 to 64 are entries without a file, all zeros
FIRST_PIN_PAGE = 65
# the writes of CREATE, and of an update
CREATED, WRITES_OF_AN_UPDATE = 10, 4
# the operations of a write without a step, of one that erases, of one that copies, and of one that copies an older page
# again before
PLAIN = 2
ERASES, COPIES, COPIES_MORE = 1 + 2, 2 * STEP_PAGES + 2, 2 + 2 * STEP_PAGES + 2
# A write begins at most 37 operations (docs/FLASH.md, "The pause"): those, and the close mark of a move's last step.
MOST = COPIES_MORE + 1
# the sessions of one write, and how many of them are between two looks at the flash: less than from move to move
SINGLE_WRITES, BETWEEN = 4 * PAGES, 128
# One of so many sessions of one write loses power at an operation, so many operations from that of the one before. So
# many of these are tried.
LOST_EVERY, LOST_APART, LOST_WRITES = 11, 5, 5 * MOST


def session(updates: int) -> list[str]:
    """The lines of a session on a new flash, with a number of updates."""
    return ["on", CREATE, *[SAME] * updates]


def blank_sectors(flash: Flash, area: int) -> list[int]:
    """The sectors of an area that are blank."""
    return [it for it in range(flash.kind.sectors) if flash.is_blank(*flash.kind.sector(area, it))]


def pages_in(flash: Flash, area: int) -> list[int]:
    """The pages in the slots of an area, in order."""
    return [page for _, page in flash.held(area)]


def pages_of(*steps: int) -> list[int]:
    """The pages that these steps copy."""
    return [STEP_PAGES * step + it for step in steps for it in range(STEP_PAGES)]


class Moves:
    """The flashes of a test, each in a file."""

    def __init__(self, tests: Checks, flash: str, folder: Path, kind: Kind) -> None:
        self.tests, self.flash, self.folder, self.kind = tests, flash, folder, kind

    def bench(self, name: str, lines: Iterable[str]) -> FlashBench:
        """A bench on a new flash, behind a session."""
        bench = FlashBench(self.flash, self.folder / name, COMPLEMENTS, self.kind)
        bench.run("".join(f"{it}\n" for it in lines))
        return bench


def check_erases(moves: Moves) -> None:
    """Behind a power-on the erased sectors are found: a write erases the next one. One whose erase lost power is erased
    again."""
    same = moves.tests.same
    bench = moves.bench("erases", session(TO_ERASES_OF_A))
    old = bench.flash()
    same((old.turn, blank_sectors(old, 0)), (2, [*range(ERASED)]), "five sectors are erased")
    bench.run("on\n" * 3)
    same(bench.flash(), old, "power-ons only read")
    for mask, erased in (("0000", ERASED), ("0001", ERASED + 1), ("0001", ERASED + 2)):
        same(bench.operations(AGAIN), ERASES, f"an erase, a record and a mark: {mask}, {erased}")
        bench.cut(AGAIN, mask)
        new, (end, _) = bench.flash(), LARGE.sector(0, erased if mask == "0001" else erased + 1)
        same(blank_sectors(new, 0), [*range(erased)], f"the blank sectors: {mask}, {erased}")
        area = slice(end, LARGE.area_words)
        same(new.words[area], old.words[area], f"the others stay: {mask}, {erased}")


def check_copies(moves: Moves) -> None:
    """Behind a power-on the copies are found, and the page whose copy is older: a write copies that page again, then
    the next pages. With one write for each power-on a move takes as many writes as in one session, and puts as many
    records into the other area, if each write changes its page."""
    same = moves.tests.same
    bench = moves.bench("copies", session(TO_MORE_COPIES))
    old = pages_in(bench.flash(), 0)
    # (the pages of writes 378 to 385 are copied again; that of write 386, the gate, is older)
    steps = pages_of(*range(MORE_COPIED))
    same((len(old), sorted({*old})), (len(steps) + 8, steps), "14 steps are taken")
    for step, line, older in ((MORE_COPIED, OTHER, GATE_PAGE), (MORE_COPIED + 1, AGAIN, PAIR_PAGE)):
        same(bench.operations(line), COPIES_MORE, f"16 pages are copied, and before them an older one: step {step}")
        bench.cut(line, "0001")
        new = pages_in(bench.flash(), 0)
        same(new, [*old, older, *pages_of(step)], f"behind a power-on the pages of step {step} are the next ones")
        old = new
    for step in range(MORE_COPIED + 2, STEPS - 1):
        bench.cut((OTHER, AGAIN)[step % 2], "0001")
    same(bench.flash().turn, 2, "one step is left")
    same(bench.operations(AGAIN), MOST, "the last step copies, and closes a block")
    bench.cut(AGAIN, "0001")
    same((bench.flash().turn, bench.flash().areas[0].used), (0, PAGES + 58 + 1), "no page is copied twice")


def check_lead(moves: Moves, copies: int) -> None:
    """The last write that takes no step, and the first one that takes one: behind a power-on on a new flash it has so
    many operations, as it copies the first pages."""
    updates, left = divmod(moves.kind.slots - PAGES - moves.kind.lead - CREATED, WRITES_OF_AN_UPDATE)
    bench = moves.bench("lead", session(updates))
    lines = [(AGAIN, OTHER)[it % 2] for it in range(left + 1)]
    for line in lines[:-2]:
        bench.cut(line, "0001")
    moves.tests.check(bench.has_operations(lines[-2], PLAIN), "the last write without a step")
    bench.cut(lines[-2], "0001")
    moves.tests.same(bench.flash().areas[0].free, moves.kind.lead, "the free slots of the first step")
    moves.tests.check(bench.has_operations(lines[-1], copies), "the first write with a step")


def check_unchanged(moves: Moves) -> None:
    """A write may leave its page as it was. Then its copy is none that is older: behind a power-on no page is copied
    again."""
    same = moves.tests.same
    bench = moves.bench("unchanged", session(TO_MORE_COPIES))
    # (the pair of an update that is cut behind it is the one of the update before)
    same(bench.operations(AGAIN), COPIES_MORE, "the gate is copied again, and 16 pages are copied")
    bench.cut(AGAIN, "0001")
    old = pages_in(bench.flash(), 0)
    same(bench.operations(AGAIN), COPIES, "16 pages are copied, a record and a mark")
    bench.cut(AGAIN, "0001")
    same(pages_in(bench.flash(), 0), [*old, *pages_of(MORE_COPIED + 1)], "no page is copied again")


def check_torn_copies(moves: Moves) -> None:
    """A write loses power at each of its 36 operations: the gate is copied again, 16 pages are copied, and a pair is
    written. All words are old. The next write copies the gate again if the power loss came before its mark, operation
    1, was whole, so at operations 0 and 1; and then 16 pages. Behind 15 of the 16 copies the log takes the step as done
    and the last page as one with an older copy: at operations 32 and 33. In the record of the write, operations 34 and
    35, the step is done."""
    same = moves.tests.same
    bench = moves.bench("torn", session(TO_MORE_COPIES))
    old, image = bench.flash(), bench.image.read_bytes()
    same(bench.operations(OTHER), COPIES_MORE, "the write copies, and before that an older page")
    for operation in range(COPIES_MORE):
        bench.cut(OTHER, f"{2 * operation:04X}")
        same(bench.flash().pages == old.pages, True, f"all words are old behind operation {operation}")
        wanted = COPIES_MORE if operation in (0, 1, 32, 33) else COPIES
        same(bench.operations(OTHER), wanted, f"the write behind a power loss at operation {operation}")
        bench.image.write_bytes(image)


def check_new_flash(moves: Moves) -> None:
    """A new flash has nothing to erase. So behind a power-on in the first move the first pages are copied."""
    same = moves.tests.same
    bench = moves.bench("new", session(TO_ERASES_OF_B))
    same((bench.flash().turn, blank_sectors(bench.flash(), 1)), (0, [*range(LARGE.sectors)]), "area B is blank")
    same(bench.operations(AGAIN), COPIES, "16 pages are copied, a record and a mark")
    bench.cut(AGAIN, "0001")
    same(pages_in(bench.flash(), 1), pages_of(0), "they are the first ones")


def check_zeros(moves: Moves) -> None:
    """A page of zeros reads the same in an area without it. So behind a power-on a step that has only such pages is not
    taken: on this card pages 32 to 64 are those of entries without a file."""
    same = moves.tests.same
    bench = moves.bench("zeros", session(TO_COPIES))
    same(pages_in(bench.flash(), 0), pages_of(*range(COPIED)), "two steps are taken")
    same(bench.operations(AGAIN), COPIES, "16 pages are copied, a record and a mark")
    bench.cut(AGAIN, "0001")
    wanted = pages_of(*range(COPIED), FIRST_PIN_PAGE // STEP_PAGES)
    same(pages_in(bench.flash(), 0), wanted, "pages 32 to 63 are not copied")


def flashes(bench: FlashBench, lines: Iterable[str]) -> Iterator[Flash]:
    """The flash, again and again, in sessions that have these lines each."""
    for _ in range(SINGLE_WRITES // BETWEEN):
        bench.run("".join(f"{it}\n" for it in lines) * BETWEEN)
        yield bench.flash()


def check_pace(moves: Moves) -> None:
    """Sessions of one write each, through several moves. No write has more than 37 operations, so a power loss at
    operation 37, counted from 0, comes behind each, and leaves what a power loss behind the write leaves. At operation
    36 it doesn't, where each write changes its page: a write that copies an older page again, copies, and passes the
    turn has 37. The writes are of two pairs in turn, or of the word that a power-on puts back. This one leaves its page
    as it was, so the longest one copies and passes the turn."""
    before = {"a pair": [*session(0), "off"], "a word": [*session(0), "cut 2 0001", UPDATE]}
    again = {"a pair": (AGAIN, OTHER), "a word": ("",)}
    for name, longest in (("a pair", MOST), ("a word", COPIES + 1)):
        found = {}
        for mask in ("0001", f"{2 * MOST:04X}", f"{2 * (longest - 1):04X}"):
            bench = moves.bench(f"{name} {mask}", before[name])
            sessions = [f"cut 1 {mask}\non\n{it}" for it in again[name]]
            found[mask] = [*flashes(bench, sessions)]
        whole, most, less = found.values()
        turns = [it.turn for it in whole]
        moves.tests.check({*turns} == {0, 1, 2}, f"sessions of {name} pass all turns", f"{turns}")
        moves.tests.check(most == whole, f"no session of {name} begins more than {MOST} programs and erases")
        moves.tests.check(less != whole, f"some session of {name} begins {longest}")


@dataclass(frozen=True)
class LostWrite:
    """The lines of a write that lost power, and the flash before and behind it."""

    lines: str
    before: Flash
    after: Flash


def lost_writes(bench: FlashBench, mask: str) -> Iterator[LostWrite]:
    """Every 11th session of one write loses power at an operation, of 0 to 36; the others do by this mask."""
    for lost in range(LOST_WRITES):
        *others, lines = ((AGAIN, OTHER)[(LOST_EVERY * lost + it) % 2] for it in range(LOST_EVERY))
        bench.run("".join(f"cut 1 {mask}\non\n{it}\n" for it in others))
        before = bench.flash()
        bench.cut(lines, f"{2 * (LOST_APART * lost % MOST):04X}")
        yield LostWrite(lines, before, bench.flash())


def check_losses(moves: Moves) -> None:
    """Sessions of one write each, through several moves, where every 11th loses power at an operation. At most 7 of
    them fall into the 64 steps that copy. One at operation 0 or 1 takes a slot of the other area, one at operation k up
    to 33 takes k / 2, a later one none. With 5 operations from one to the next, 7 of them take at most 61 slots. The
    area has 1,280 - 1,024 - 64 - 124 = 68 for them, so no other session has more than 37 operations. Behind each of
    them the words are old, or those of the write, which has a pair."""
    for seed in (COMPLEMENTS, SEED):
        # (a power loss behind a write, and one at operation 37)
        benches = [moves.bench(f"losses {seed} {it}", [*session(0), "off"]) for it in range(2)]
        for bench in benches:
            bench.seed = seed
        pairs = {it: benches[0].left(it, "0001").page(PAIR_PAGE) for it in (AGAIN, OTHER)}
        torn: list[int] = []
        longer: list[int] = []
        turns: set[int] = set()
        copies = 0
        found = map(lost_writes, benches, ("0001", f"{2 * MOST:04X}"))
        for number, (lost, same) in enumerate(zip(*found)):
            turns.add(lost.after.turn)
            copies += garbage(lost.after) > garbage(lost.before)
            if lost != same:
                longer.append(number)
            if lost.after.pages not in (lost.before.pages, with_pair(lost.before.pages, pairs[lost.lines])):
                torn.append(number)
        moves.tests.same(turns, {0, 1, 2}, f"sessions that lose power pass all turns: seed {seed}")
        moves.tests.check(copies > 0, f"some of them lose power as pages are copied: seed {seed}", f"{copies}")
        moves.tests.same(longer, [], f"no other session begins more than {MOST} programs and erases: seed {seed}")
        moves.tests.same(torn, [], f"the words are old or new behind each power loss: seed {seed}")


def garbage(flash: Flash) -> int:
    """The slots of the other area that hold garbage."""
    return flash.areas[1 - flash.home].garbage


def with_pair(words: tuple[int, ...], pair: tuple[int, ...]) -> tuple[int, ...]:
    """These words of all pages, with another page of the first pair."""
    at = PAGE_WORDS * PAIR_PAGE
    return (*words[:at], *pair, *words[at + PAGE_WORDS:])


def check(tests: Checks, flash: str) -> None:
    """All of them."""
    parts = (check_erases, check_copies, check_unchanged, check_torn_copies, check_new_flash, check_zeros, check_pace,
             check_losses)
    for part in parts:
        with TemporaryDirectory(prefix="moves-") as folder:
            part(Moves(tests, flash, Path(folder), LARGE))
