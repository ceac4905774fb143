"""The program that tries a flash's duties: it passes the example's flash, and names what a broken one breaks."""
from __future__ import annotations

import os
from concurrent.futures import ThreadPoolExecutor
from functools import partial
from pathlib import Path

from ...porting.over_flash import FLASH_EXAMPLE, fill
from ...porting.writing import EXAMPLE, write_port
from ..chip.building import WARNINGS, Failed, lacks
from ..chip.duties import CHANGED, WORDS_AT, kept, printed
from .building import CHECKED, CHIP, DRIVER, Room, by_host, made
from .emulating import emulator_of, new_flash

SOURCES = [FLASH_EXAMPLE / "duties.c", EXAMPLE / "board_host.c"]
CLEARED = "words[at + i] &= from[i];"
ERASED = "words[i] = (uint32_t)BLANK;"
END = "end = start_of((size_t)sector + 1);"
START = "size_t start = start_of(sector), "
BODY = f"{START}{END}"
# what is changed in the example's flash, and the duty that is then broken
BROKEN = (
    ("*word = words[at];", "*word = words[at ^ 1];", "device_program: the words are there"),
    ("*word = words[at];", "*word = words[at % FLASH_AREA_WORDS];", "device_program: the words are there, in area B"),
    ("*word = words[at];", "*word = words[at]; words[at] &= ~(at == 77);", "device_read: a read changes no word"),
    (CLEARED, "words[at + i] &= from[i] | 1;", "device_program: done"),
    (CLEARED, f"{CLEARED} words[at + i] &= ~(uint32_t)(i == 17);", "device_program: done"),
    (CLEARED, f"{CLEARED} words[(at + i + 1) % FLASH_WORDS] &= ~1u;", "device_program: done"),
    (CLEARED, f"{CLEARED} words[(at + FLASH_AREA_WORDS) % FLASH_WORDS] &= ~2u;", "no word changes outside area A"),
    ("i < (size_t)count", "i < (size_t)count && i < 18", "device_program: a run is there"),
    ("i < (size_t)count", "i + 1 < (size_t)count || i == 0", "device_program: the words are there"),
    ("return is_there ? DEVICE_DONE", "return at != 40 ? DEVICE_DONE", "device_program: done, in area A"),
    (ERASED, "words[i] |= 0xFFFFFF7F;", "device_erase: done"),
    (ERASED, "words[i] = 0;", "device_erase: done"),
    (BODY, f"sector ^= sector == 2 * FLASH_SECTORS ? 0 : 1;\n    {BODY}", "device_erase"),
    (END, "end = start_of((size_t)sector + 1) - (sector == 2 * FLASH_SECTORS);",
     "all words are blank, of the witness"),
    (END, "end = start_of((size_t)sector + 1) + (sector != 2 * FLASH_SECTORS);",
     "device_erase: no word changes outside"),
    (END, "end = start_of((size_t)sector + 1) - (sector != 2 * FLASH_SECTORS);",
     "device_erase: what was programmed is blank"),
    (BODY, f"if (sector == 1)\n        words[FLASH_WORDS - 1] = (uint32_t)BLANK;\n    {BODY}",
     "device_erase: no word changes outside area B"),
    (BODY, f"if (sector == 1)\n        words[9] = (uint32_t)BLANK;\n    {BODY}",
     "device_erase: no word changes outside area B"),
    (BODY, f"if (sector == 0 && words[0] != (uint32_t)BLANK && words[1000] == (uint32_t)BLANK)\n"
     f"        return DEVICE_DONE;\n    {BODY}", "device_erase: of a block that isn't full"),
)
# over a flash of many sectors: what is changed there, and the duty that is then broken
FEW_WORDS = 1000
ALONE = "device_erase: no word changes outside the sector"
BROKEN_SECTORS = (
    (START, "size_t start = start_of(sector ? sector - 1u : 0u), ", f"{ALONE}, in area B"),
    (END, "end = start_of((size_t)sector + 2);", f"{ALONE}, in area A"),
    (END, f"{END}\n    start = start / FLASH_AREA_WORDS * FLASH_AREA_WORDS;", f"{ALONE}, in area B"),
    (END, "end = sector + 1 == FLASH_SECTORS ? start + FLASH_SECTOR_WORDS : start_of((size_t)sector + 1);",
     "device_erase: no word changes outside area A"),
    (END, "end = start_of((size_t)sector + 1) - (sector == 1);", "device_erase: what was programmed is blank"),
    ("sector / FLASH_SECTORS * FLASH_AREA_WORDS", "0", "device_erase"),
)


def changed(room: Room, name: str, old: str, new: str) -> Path:
    """The example's flash with something changed."""
    source = (FLASH_EXAMPLE / "flash.c").read_text(encoding="utf-8")
    if old not in source:
        raise Failed(f"examples/flash/flash.c has no longer: {old}")
    flash = room.folder / f"{name}.c"
    flash.write_text(source.replace(old, new, 1), encoding="utf-8")
    return flash


def by_broken(room: Room, number: int) -> str:
    """What the program prints with a broken flash."""
    old, new, _ = BROKEN[number]
    flash = changed(room, f"broken{number}", old, new)
    return by_host([*SOURCES, flash], flash.with_suffix(".duties"), "-w")


def compare_sectors(room: Room) -> None:
    """The same of a flash whose areas have many sectors, and of broken ones."""
    port = room.folder / "sectors"
    write_port(port, partial(fill, sector_words=FEW_WORDS))
    sources = [port / "device" / it for it in ("duties.c", "board_host.c")]
    including = f"-I{port / 'device'}"
    text = by_host([*sources, port / "device/flash.c"], room.folder / "sectors.duties", including, *WARNINGS, *CHECKED)
    is_so = text.endswith(" passed, 0 failed\n")
    room.checks.check(is_so, "the example's flash keeps its duties with many sectors", text)
    for at, (old, new, duty) in enumerate(BROKEN_SECTORS):
        flash = changed(room, f"sectors{at}", old, new)
        text = by_host([*sources, flash], flash.with_suffix(".duties"), including, "-w")
        is_named = any(it.startswith("broken: ") and duty in it for it in text.splitlines())
        room.checks.check(is_named, f"a flash of many sectors is broken: {new}", text)


def compare_reset(room: Room, out: Path) -> None:
    """On a board whose memory survives, the second run finds what the first one wrote, or says that it isn't there."""
    program, memory = made(room, CHIP.name, out, "flash.c", "duties"), room.folder / "duties.memory"
    for what, wanted in (("the first run", "no run before"), ("a reset", "duties: "), ("a lost word", "without power")):
        if what == "a lost word":
            with memory.open("r+b") as file:
                file.seek(WORDS_AT + CHANGED)
                file.write(b"\0\0\0\0")
        text = printed([*CHIP.emulator, *kept(memory), "-kernel", str(program)])
        is_so = wanted in text and text.endswith(" 0 failed\n") == (what != "a lost word")
        room.checks.check(is_so and ("no run before" in text) == (what == "the first run"), f"duties: {what}", text)


def compare_driver(room: Room, out: Path) -> None:
    """The driver keeps its duties on the flash of qemu."""
    program = made(room, CHIP.name, out, DRIVER, "duties")
    text = printed(emulator_of(program, new_flash(room.folder / "duties.flash")))
    room.checks.check(text.endswith(" passed, 0 failed\n"), "the driver keeps its duties on qemu's flash", text)


def compare_chip(room: Room) -> None:
    """Tries the duties on a board."""
    if missing := lacks(CHIP):
        room.checks.skip("duties on a board", f"{missing} isn't installed")
        return
    out = room.folder / "no-library"
    out.mkdir()
    compare_reset(room, out)
    compare_driver(room, out)


def compare(room: Room) -> None:
    """Tries the example's flash, and each broken one."""
    compare_chip(room)
    compare_sectors(room)
    text = by_host([*SOURCES, FLASH_EXAMPLE / "flash.c"], room.folder / "duties", *WARNINGS, *CHECKED)
    is_first = text.startswith("no run before this one\n")
    room.checks.check(is_first and text.endswith(" passed, 0 failed\n"), "the example's flash keeps its duties", text)
    with ThreadPoolExecutor(os.cpu_count()) as pool:
        for (old, new, duty), text in zip(BROKEN, pool.map(lambda it: by_broken(room, it), range(len(BROKEN)))):
            is_named = any(it.startswith("broken: ") and duty in it for it in text.splitlines())
            room.checks.check(is_named, f"a flash is broken: {new or 'no ' + old}", text)
