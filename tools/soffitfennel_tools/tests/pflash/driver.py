"""The driver of examples/flash over chips in which something goes wrong, and drivers with a fault."""
from __future__ import annotations

import os
import shutil
from concurrent.futures import ThreadPoolExecutor

from ...porting.over_flash import FLASH_EXAMPLE
from ..chip.building import WARNINGS, Failed
from .building import CHECKED, PROGRAMS, Room, by_host

SOURCES = [PROGRAMS / "pflash_cases.c", PROGRAMS / "bank_model.c"]
# (a driver that waits too long ends soon)
FEW_POLLS = "-DPOLLS=1000"
BACK = "is_done = bank_get(place_of(at + i)) == words[i];"
# what is changed in the driver, and the case that then fails
BROKEN = (
    (BACK, "is_done = true;", "program: each word is read back"),
    (BACK, BACK.replace("at + i", "at").replace("words[i]", "words[0]"), "program: each word is read back"),
    ("is_done = bank_get(start + i) == blank;", "is_done = true;", "erase: each word is read back"),
    ("i < SECTOR_WORDS && is_done", "i < SECTOR_WORDS - 1 && is_done", "erase: each word is read back"),
    ("return !is_busy && (state & BOTH(FAILED)) == 0;", "return !is_busy;", "the status of both chips"),
    ("(state & BOTH(FAILED)) == 0", "(state & FAILED) == 0", "the status of both chips"),
    ("FAILED = 0x3A", "FAILED = 0x1A", "erase: the status of both chips"),
    ("FAILED = 0x3A", "FAILED = 0x2A", "program: the status of both chips"),
    ("is_busy = (state & BOTH(READY)) != BOTH(READY);", "is_busy = (state & READY) == 0;",
     "read: no status for a word"),
    ("&& (state & BOTH(READY)) != BOTH(READY); polls++", "&& (state & READY) == 0; polls++",
     "both chips are waited for"),
    ("        bank_put(0, BOTH(CLEAR));\n", "", "a failure is over at the next call"),
    ("        bank_put(0, BOTH(ARRAY));\n    }", "    }", "words"),
    ("(!is_first || unlock(place)) && ", "", "program: the words"),
    ("i == 0 || place % SECTOR_WORDS == 0", "i == 0", "program: a run in two blocks"),
    ("bool is_done = unlock(start);", "bool is_done = true;", "erase: that sector alone"),
    ("&& erase_sector(sector)", "&& erase_sector(sector + 1u)", "erase: that sector alone"),
    ("&& erase_sector(sector)", "&& erase_sector(sector) && erase_sector(sector + 1u)", "erase: that sector alone"),
    ("    if (is_busy) {\n        has_done();\n        show_words();\n    }\n", "", "is taken again"),
    ("return !is_busy && is_known();", "return is_known();", "read: no status for a word"),
    ("    if (!is_ready())\n        return DEVICE_FAULT;\n    *word", "    *word", "read: no status for a word"),
    ("bank_put(start, BOTH(CONFIRM));", "bank_put(start + SECTOR_WORDS, BOTH(CONFIRM));", "erase: that sector alone"),
    ("has_name && ", "", "a chip of another kind is left alone"),
    (" && reported(COMMANDS, 2) == INTEL", "", "a chip of another kind is left alone"),
    (" && sectors >= SECTORS", "", "a chip of another kind is left alone"),
    (" && bytes == 4 * SECTOR_WORDS", "", "a chip of another kind is left alone"),
    ("return is_ready() && bank_get(start_of(NOTE_SECTOR)) != made;", "return bank_get(start_of(NOTE_SECTOR)) != made;",
     "a chip of another kind gets no card"),
    ("!= made;", "== blank;", "a torn note is none"),
    (" && erase_sector(NOTE_SECTOR)", "", "a torn note is written anew"),
    ("NOTE_SECTOR = WITNESS_SECTOR + 1", "NOTE_SECTOR = WITNESS_SECTOR", "the note is in none of the card's blocks"),
    ("    return start_of(WITNESS_SECTOR) + at - FLASH_AREA_WORDS;",
     "    return start_of(FLASH_SECTORS) + at;", "two blocks share no sector"),
    ("words[i]);\n    }\n    show_words", "words[i ^ 1]);\n    }\n    show_words", "program: "),
)


def by_broken(room: Room, number: int) -> str:
    """What the cases print with a broken driver."""
    source = (FLASH_EXAMPLE / "pflash.c").read_text(encoding="utf-8")
    old, new, _ = BROKEN[number]
    if old not in source:
        raise Failed(f"examples/flash/pflash.c has no longer: {old}")
    folder = room.folder / f"driver{number}"
    folder.mkdir()
    (folder / "pflash.c").write_text(source.replace(old, new, 1), encoding="utf-8")
    # (the cases take the driver that is beside them first)
    shutil.copyfile(PROGRAMS / "pflash_cases.c", folder / "pflash_cases.c")
    return by_host([folder / "pflash_cases.c", PROGRAMS / "bank_model.c"], folder / "cases", FEW_POLLS, "-w")


def compare(room: Room) -> None:
    """Tries the driver, and each broken one."""
    text = by_host(SOURCES, room.folder / "cases", FEW_POLLS, *WARNINGS, *CHECKED)
    room.checks.check(text.startswith("driver: ") and text.endswith(" passed, 0 failed\n"), "the driver", text)
    with ThreadPoolExecutor(os.cpu_count()) as pool:
        for (old, new, case), text in zip(BROKEN, pool.map(lambda it: by_broken(room, it), range(len(BROKEN)))):
            is_named = any(it.startswith("broken: ") and case in it for it in text.splitlines())
            room.checks.check(is_named, f"a driver is broken: {old} → {new}", text)
