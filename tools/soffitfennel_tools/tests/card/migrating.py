"""The migration to format 2, and power lost in it: at each write of two power-ons, and at random until one completes.

In between, the recovered words are those before the migration or those after it. The card stays the same.
"""
import random
from dataclasses import dataclass

from .agreement import ANY, Line, questions
from .bench import ATR, Bench, ask
from .checks import Checks
from .images import BLOCKS, GATE, PAIRS, data_of
from .old_cards import NEW_MARK, OLD_PAGES, answers_of, busy_card, new_factory, old_factory, on_pages, renamed

# pages of a board, writes of the first power-on of the factory's card, and free blocks after it
SIZES = ((1024, 15, 895), (1030, 21, 901), (4096, 3087, 3967))
# pages of a memory of format 2, pages of its board, and free blocks: it stays as it is
SMALLER = ((1024, 1030, 895), (1030, 1031, 901), (1030, 4096, 901), (4095, 4096, 3966))
# the words of each write on 1,030 pages: six links; the pairs of eight marks, the gate, the marks; the pairs of three
# words of the header, the gate, these words in two runs; and the gate
TORN = (*[1] * 6, 16, 1, *[1] * 8, 6, 1, 2, 1, 1)
WRITES = len(TORN)
SELECT, READ = ("apdu 00A4000C022FE2", "< 9000"), ("apdu 00B000000A", "< 981032547698103254769000")
TRIALS, TERMINATED = 1000, 20


def word(data: bytes, at: int) -> int:
    """The word at an address."""
    return int.from_bytes(data[4 * at:4 * at + 4], "big")


def recovered(data: bytes) -> bytes:
    """The bytes after recovery. Of the pairs for one word the first counts, so it comes last."""
    words = bytearray(data)
    for at in reversed(range(PAIRS, PAIRS + 2 * word(data, GATE), 2)):
        address = word(data, at)
        words[4 * address:4 * address + 4] = data[4 * at + 4:4 * at + 8]
    words[4 * GATE:4 * GATE + 4] = bytes(4)
    return bytes(words)


def is_same(data: bytes, wanted: bytes, pages: int) -> bool:
    """Whether the words of these pages are equal, those of the journal aside."""
    pieces = slice(0, 4 * PAIRS), slice(64 * BLOCKS, 64 * pages)
    return len(data) == len(wanted) and all(data[it] == wanted[it] for it in pieces)


@dataclass(frozen=True)
class Ends:
    """The recovered memory before the migration, and after it."""

    before: bytes
    after: bytes

    @classmethod
    def of(cls, words: list[int]) -> "Ends":
        """The results for a recovered memory of format 1."""
        return cls(data_of(words), data_of(renamed(words)))

    def found(self, bench: Bench) -> int | None:
        """The format of the memory in the file after recovery, if its words are as expected."""
        data = recovered(bench.image.read_bytes())
        if word(data, 0) == NEW_MARK:
            return 2 if is_same(data, self.after, len(data) // 64) else None
        return 1 if is_same(data, self.before, OLD_PAGES) else None


def start(bench: Bench, data: bytes, write: int, mask: int = 0x0000) -> str:
    """What a power-on over these bytes prints, where power is lost at this write."""
    bench.image.write_bytes(data)
    return bench.run(f"cut {write} {mask:04X}\non\n")[1][0]


def makes(bench: Bench, data: bytes, writes: int) -> bool:
    """Whether a power-on over these bytes makes exactly this number of writes."""
    return start(bench, data, writes + 1) == ATR and (writes == 0 or start(bench, data, writes) == "dark")


def is_factory_card(bench: Bench, blocks: int) -> bool:
    """Whether the card in the file powers on as the factory's, in format 2, with this many free blocks."""
    lines, wanted = zip(("on", ATR), ("free", f"free {blocks} 62"), SELECT, READ)
    return bench.run("\n".join(lines))[1] == [*wanted] and word(bench.image.read_bytes(), 0) == NEW_MARK


def of_writes(checks: Checks, bench: Bench) -> None:
    """The writes of the first power-on, and of the one after it."""
    for pages, writes, blocks in SIZES:
        data = data_of(old_factory(pages))
        checks.compare(f"{writes} writes migrate {pages} pages", True, makes(bench, data, writes))
        bench.image.write_bytes(data)
        checks.compare(f"the card on {pages} pages", True, is_factory_card(bench, blocks))
        checks.compare(f"its words on {pages} pages", 2, Ends.of(old_factory(pages)).found(bench))
        checks.compare(f"no write on {pages} pages then", True, makes(bench, bench.image.read_bytes(), 0))
        checks.compare(f"the card on {pages} pages again", True, is_factory_card(bench, blocks))


def of_new_cards(checks: Checks, bench: Bench) -> None:
    """The words of the factory's card."""
    for pages in (1024, 1030, 4096):
        bench.image.unlink(missing_ok=True)
        bench.run("\n", "--pages", str(pages))
        checks.compare(f"a new card of {pages} pages", True, bench.image.read_bytes() == data_of(new_factory(pages)))


def of_more_pages(checks: Checks, bench: Bench) -> None:
    """A memory of format 2 on a larger board stays so; a pair may name a word past page 1,023."""
    for pages, more, blocks in SMALLER:
        data = data_of(on_pages(new_factory(pages), more))
        checks.compare(f"no write to {pages} pages on {more}", True, makes(bench, data, 0))
        checks.compare(f"the card of {pages} pages on {more}", True, is_factory_card(bench, blocks))
        checks.compare(f"the end of the blocks on {more} pages", pages, word(bench.image.read_bytes(), 3))
    for words, address, writes in (
        (old_factory(1030), 16_384, 2 + WRITES), (old_factory(1030), 16_479, 2 + WRITES), (new_factory(1030), 16_384, 2)
    ):
        words[GATE:GATE + 1], words[PAIRS:PAIRS + 2], words[address] = [1], [address, words[address]], 7
        checks.compare(f"{writes} writes, where a pair names {address}", True, makes(bench, data_of(words), writes))
        bench.image.write_bytes(data_of(words))
        checks.compare(f"the card where a pair names {address}", True, is_factory_card(bench, 901))


def masks(words: int) -> list[int]:
    """Of a cut write no word is new, all are, or a single one."""
    return [0x0000, 0xFFFF, *(1 << it for it in range(words) if words > 1)]


def rollback_writes(made: int) -> int:
    """The writes of recovery after this number of writes: one for each counting pair, and one for the gate."""
    return 0 if made < 8 or made == WRITES else 8 + 1 if made < 18 else 8 + 3 + 1


def check_found(checks: Checks, bench: Bench, ends: Ends, is_new: bool, what: str) -> None:
    """Recovery gives the memory before or after. The card then powers on."""
    checks.compare(what, (2 if is_new else 1, True), (ends.found(bench), is_factory_card(bench, 901)))


def cut_again(checks: Checks, bench: Bench, ends: Ends, data: bytes, made: int) -> int:
    """Cuts each write of the power-on after one that made this number of writes, and counts the cuts."""
    writes = rollback_writes(made) + (0 if made == WRITES else WRITES)
    checks.compare(f"{writes} writes after {made}", True, makes(bench, data, writes))
    for write in range(1, writes + 1):
        for mask in (0x0000, 0x0001):
            what = f"power lost after {made} writes, then at write {write} by {mask:04X}"
            checks.compare(what, "dark", start(bench, data, write, mask))
            check_found(checks, bench, ends, write == writes and mask == 1, what)
    return 2 * writes


def of_each_write(checks: Checks, bench: Bench) -> None:
    """Cuts each write of two power-ons. Of the cuts, 31 leave no counting pair, 26 eight, 8 eleven; one is the last."""
    words, first, second = old_factory(1030), 0, 0
    ends = Ends.of(words)
    for write, torn in enumerate(TORN, 1):
        for mask in masks(torn):
            what = f"power lost at write {write} by {mask:04X}"
            checks.compare(what, "dark", start(bench, data_of(words), write, mask))
            data, made = bench.image.read_bytes(), write if mask & 1 else write - 1
            check_found(checks, bench, ends, made == WRITES, what)
            first, second = first + 1, second + cut_again(checks, bench, ends, data, made)
    checks.compare("the cuts of two power-ons", (66, 2 * (31 * 21 + 26 * 30 + 8 * 33)), (first, second))


@dataclass(frozen=True)
class Trial:
    """A card of format 1 with many files and an open transaction, and what its migration must preserve."""

    data: bytes
    ends: Ends
    lines: list[Line]

    @classmethod
    def of(cls, state: int, chance: random.Random) -> "Trial":
        """The card in this state."""
        busy = busy_card(state, chance)
        ends = Ends.of(busy.words)
        busy.begin()
        return cls(data_of(busy.words), ends, list(questions(answers_of(busy, state == 1))))

    def migrate(self, checks: Checks, bench: Bench, chance: random.Random, is_asked: bool) -> int:
        """Cuts power-ons until one completes, and counts them. Optionally the card then reads all its files."""
        bench.image.write_bytes(self.data)
        process, cuts = bench.start(), 0
        while (came := ask(process, f"cut {chance.randint(1, 24)} {chance.randrange(1 << 16):04X}\non")) == "dark":
            cuts += 1
            checks.compare(f"a memory before or after, at cut {cuts}", True, self.ends.found(bench) is not None)
        checks.compare("the power-on that completes", ATR, came)
        for line, wanted in self.lines[1:] if is_asked else self.lines[1:2]:
            came = ask(process, line)
            checks.compare(f"after {cuts} cuts: {line}", came if wanted is ANY else wanted, came)
        checks.compare("a power-on without a write", ATR, ask(process, "off\ncut 1 0000\non"))
        process.communicate()
        checks.compare("the memory after the migration", 2, self.ends.found(bench))
        return cuts


def of_many_files(checks: Checks, bench: Bench, chance: random.Random) -> None:
    """Each trial checks all words, so only each tenth reads the files. A terminated card stays so."""
    trial = Trial.of(0, chance)
    cuts = sum(trial.migrate(checks, bench, chance, it % 10 == 0) for it in range(TRIALS))
    checks.compare("at least 10 power-ons are cut in a migration", True, cuts >= 10 * TRIALS)
    ended = Trial.of(1, chance)
    for _ in range(TERMINATED):
        ended.migrate(checks, bench, chance, True)
    print(f"card: {TRIALS} migrations of a card with many files, {cuts} power-ons cut")


def check(checks: Checks, bench: Bench) -> None:
    """The same migrations in each run."""
    of_new_cards(checks, bench)
    of_writes(checks, bench)
    of_more_pages(checks, bench)
    of_each_write(checks, bench)
    of_many_files(checks, bench, random.Random(1))
