"""Cards of 4,096 pages, filled with files until no space is left, and emptied again."""
from collections.abc import Iterator

from ...card_image.layout import blocks_of

from .bench import ATR, Bench
from .checks import Checks
from .images import data_of
from .kills import created
from .migrating import is_factory_card, makes
from .old_cards import old_factory

DONE, NO_ROOM = "< 9000", "< 6A84"
BLOCKS, ENTRIES = 3967, 62
# the sizes of the files, and after some of them a size that doesn't fit: the largest files of 547 blocks, with 138
# blocks left; and 61 files of 64 blocks and one of 63, which take all blocks and all entries
LARGEST = (*[(32_767, 0)] * 6, (32_767, 8281), (8280, 1))
MANY = (*((3781 + it, 0) for it in range(60)), (3781, 3781), (3780, 1))
Line = tuple[str, str]


def filled(sizes: tuple[tuple[int, int], ...]) -> Iterator[Line]:
    """Creates files of these sizes. A file costs a block for each 60 bytes, rounded up."""
    blocks, entries = BLOCKS, ENTRIES
    yield "on", ATR
    for number, (size, refused) in enumerate(sizes, 1):
        blocks, entries = blocks - blocks_of(size), entries - 1
        yield created(0x6F00 + number, size), DONE
        yield "free", f"free {blocks} {entries}"
        if refused:
            yield created(0x6F00, refused), NO_ROOM
            yield "free", f"free {blocks} {entries}"


def emptied(sizes: tuple[tuple[int, int], ...]) -> Iterator[Line]:
    """Deletes the files with odd numbers, and then those with even numbers."""
    blocks, entries = 0, ENTRIES - len(sizes)
    yield "on", ATR
    yield "free", f"free {blocks} {entries}"
    numbers = range(1, len(sizes) + 1)
    for number in [*numbers[::2], *numbers[1::2]]:
        blocks, entries = blocks + blocks_of(sizes[number - 1][0]), entries + 1
        yield f"apdu 00E4000002{0x6F00 + number:04X}", DONE
        yield "free", f"free {blocks} {entries}"


def prints(checks: Checks, bench: Bench, what: str, lines: list[Line]) -> None:
    """What each line prints."""
    came = bench.run("".join(f"{line}\n" for line, _ in lines), "--pages", "4096")[1]
    for (line, wanted), answer in zip(lines, came):
        checks.compare(f"{what}: {line}", wanted, answer)
    checks.compare(f"{what}: the number of answers", len(lines), len(came))


def check(checks: Checks, bench: Bench) -> None:
    """Fills a new card and one of format 1, powers it on again, and empties it."""
    for sizes in (LARGEST, MANY):
        for what in ("a new card", "a migrated card"):
            bench.image.unlink(missing_ok=True)
            if what == "a migrated card":
                bench.image.write_bytes(data_of(old_factory(4096)))
            prints(checks, bench, f"{len(sizes)} files on {what}", list(filled(sizes)))
            checks.compare(f"{what}: a power-on without a write", True, makes(bench, bench.image.read_bytes(), 0))
            prints(checks, bench, f"{len(sizes)} files off {what}", list(emptied(sizes)))
            checks.compare(f"{what}: the factory's card", True, is_factory_card(bench, BLOCKS))
