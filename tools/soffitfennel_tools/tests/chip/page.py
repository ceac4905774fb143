"""The numbers of docs/CHIP.md: each is what the tools build, or a little more."""
from __future__ import annotations

import re
import subprocess
import tempfile
from math import ceil
from pathlib import Path

from ...chips.building import HEADER, bounds, compiled, rewritten
from ...chips.module import CARD
from ...chips.targets import TARGETS
from ...narrowing.building import TOP
from ...porting.writing import EXAMPLE
from .building import SMALL, Room

PAGE = TOP / "docs" / "CHIP.md"
# a stored number is a little more than what is measured, so that a small change needs no new page, and never far more
STORED, MORE, STEP = 1.01, 1.03, 100
# the small chip has room for the card, and for the C below it
MOST_CODE, MOST_STACK = 56 * 1024, 7 * 1024
ROW = re.compile(r"^\| `([\w-]+)` \| ([\d,]+) \| ([\d,]+) \| ([\d,]+) \|$", re.M)
BLOCK = "card_block"
PLACE = re.compile(r"a place of ([\d,]+) bytes")
MOST_WORDS = 600
WRITES = re.compile(r"at most (\d+) device writes\s+\(`COMMAND_WRITES`\)")
WAITING = re.compile(r"BWI of (\d+) gives a reply ([\d.]+) s at ([\d.]+) MHz")
RESET = re.compile(r"Your loop sends `(\w+)`")
LEAST = re.compile(r"at least ([\d,]+) bytes: ([\d,]+) pages of (\d+) words")


def measured(room: Room, name: str) -> list[int]:
    """Code and constants, the most stack of a call, and that of a block."""
    target = TARGETS[name]
    with tempfile.TemporaryDirectory(dir=room.folder) as folder:
        made = compiled(rewritten(room.text, target), target, Path(folder))
        ran = subprocess.run(["size", made], capture_output=True, text=True, check=True)
        text, data, zero = map(int, ran.stdout.splitlines()[1].split()[:3])
        room.checks.same((data, zero), (0, 0), f"static data of {CARD} on {name}")
        room.bounds[name] = bounds(target, Path(folder))
        found = {called: it.size for called, it in room.bounds[name].items()}
        return [text, max(found.values()), found[BLOCK]]


def constant(path: str, name: str) -> int:
    """A constant of the sources."""
    found = re.search(rf"pub const {name}: u\d+ = (\d+);", (TOP / "crates" / path).read_text(encoding="utf-8"))
    assert found, name
    return int(found[1])


def compare_constants(room: Room, text: str) -> None:
    """The numbers that are constants of the sources."""
    writes, least = WRITES.search(text), LEAST.search(text)
    room.checks.check(bool(writes), "the page names a command's writes")
    room.checks.check(bool(least), "the page names the least memory")
    if writes and least:
        most = constant("command_base/src/spending.rt", "COMMAND_WRITES")
        room.checks.same(int(writes[1]), most, "a command's writes")
        size, pages, words = (int(it.replace(",", "")) for it in least.groups())
        board = "nvm_board/src/board.rt"
        room.checks.same(pages, constant(board, "LEAST_PAGES"), "the least number of pages")
        room.checks.same(words, constant(board, "PAGE_WORDS"), "the words of a page")
        room.checks.same(size, 4 * pages * words, "the bytes of the least memory")
    place = PLACE.search(text)
    header = (EXAMPLE / HEADER).read_text(encoding="utf-8")
    wanted = f"CARD_BYTES = {place[1].replace(',', '')}," if place else "a place"
    room.checks.check(wanted in header, "the bytes of a card's place", wanted)
    compare_reset(room, text)
    words = len(text.split())
    room.checks.check(words <= MOST_WORDS, f"docs/CHIP.md has {words} words, and {MOST_WORDS} at most")


def compare_reset(room: Room, text: str) -> None:
    """The answer to reset is the bench's, and BWT is that of its TB3 (ISO/IEC 7816-3, 11.4.3)."""
    reset, waiting = RESET.search(text), WAITING.search(text)
    room.checks.check(bool(reset and waiting), "the page has the answer to reset and BWT")
    if not reset or not waiting:
        return
    ran = subprocess.run([room.bench], input="on\n", capture_output=True, text=True, check=False)
    room.checks.same(f"atr {reset[1]}\n", ran.stdout, "the answer to reset")
    room.checks.same(int(waiting[1]), bytes.fromhex(reset[1])[5] >> 4, "BWI")
    seconds = (1 << int(waiting[1])) * 960 * 372 / (float(waiting[3]) * 1e6)
    room.checks.same(waiting[2], f"{seconds:.1f}", "BWT")


def compare(room: Room, is_stored: bool) -> None:
    """Compares the numbers, or stores those of the table anew."""
    text = PAGE.read_text(encoding="utf-8")
    rows = {it[1]: it for it in ROW.finditer(text)}
    chips = [name for name, it in TARGETS.items() if it.architecture]
    room.checks.same(list(rows), chips, "the targets of the page")
    for name in chips:
        sizes = measured(room, name)
        if is_stored:
            told = " | ".join(f"{ceil(it * STORED / STEP) * STEP:,}" for it in sizes)
            text = text.replace(rows[name][0], f"| `{name}` | {told} |")
            continue
        if name == SMALL:
            fits = sizes[0] <= MOST_CODE and sizes[1] <= MOST_STACK
            room.checks.check(fits, f"the card fits a {name} of 64 KiB of ROM and 8 KiB of RAM", f"{sizes}")
        shown = [int(it.replace(",", "")) for it in rows[name].groups()[1:]]
        is_so = all(size <= it <= size * MORE for size, it in zip(sizes, shown))
        room.checks.check(is_so, f"the sizes of {name} on docs/CHIP.md", f"{shown} on the page, {sizes} measured")
    if is_stored:
        PAGE.write_text(text, encoding="utf-8")
    else:
        compare_constants(room, text)
