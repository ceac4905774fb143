"""A card on the flash of qemu's board virt, which outlasts the emulator in a file of its own."""
from __future__ import annotations

import os
import re
import subprocess
from array import array
from dataclasses import dataclass
from pathlib import Path

from ..chip.playing import QUIET, serial
from .building import CHIP

# the board has two banks of this size, and its programs take the second one
BANK_BYTES, SECTOR_WORDS = 32 << 20, 0x10000
SLOTS, SLOT_WORDS, MARK = 1280, 20, [0x436F6D6D, 0x69747321]
BLANK = 0xFFFFFFFF


def new_flash(path: Path, content: bytes = b"") -> Path:
    """A file for a bank, for its owner alone: it holds PINs."""
    with open(os.open(path, os.O_WRONLY | os.O_CREAT | os.O_EXCL, 0o600), "wb") as file:
        file.write(content)
        file.truncate(BANK_BYTES)
    return path


def content_of(path: Path) -> bytes:
    """The sectors of the card and of the note."""
    with path.open("rb") as file:
        return file.read(4 * 4 * SECTOR_WORDS)


def emulator_of(program: Path, flash: Path) -> list[str]:
    """The command line of the emulator with a program and a flash."""
    # (it would take a file for -kernel as one that starts from the bank)
    drive = f"if=pflash,unit=1,format=raw,file={flash}"
    return [*CHIP.emulator, "-drive", drive, "-device", f"loader,file={program}"]


def emulator(program: Path, flash: Path) -> subprocess.Popen[str]:
    """The emulator with a program and a flash, and a pseudo-terminal as its serial port."""
    words = [*emulator_of(program, flash), *QUIET, "-serial", "pty"]
    return subprocess.Popen(words, stdout=subprocess.PIPE, stderr=subprocess.STDOUT, text=True)


def port_of(process: subprocess.Popen[str]) -> str:
    """The path of its serial port."""
    assert process.stdout
    while line := process.stdout.readline():
        if found := re.search(r"/dev/pts/\d+", line):
            return found[0]
    raise serial.Stopped("the emulator has no port")


@dataclass(frozen=True)
class Seen:
    """What is in a flash: whether a move is under way, and whether a slot is torn."""

    is_moving: bool
    is_torn: bool


def look_at(flash: Path) -> Seen:
    """What a flash is in the midst of (docs/FLASH.md)."""
    words = array("I", content_of(flash))
    closed, home = closed_of(words), home_of(words)
    other = slots(words, 1 - home)
    # an area that isn't home is closed, or what a move left in it
    is_moving = not closed[1 - home] and any(other)
    return Seen(is_moving, any(it is False for it in slots(words, home)))


def closed_of(words: array[int]) -> list[bool]:
    """Whether area A, area B and the witness are closed."""
    area = SLOTS * SLOT_WORDS
    return [any(it != BLANK for it in words[at : at + 2]) for at in (area, SECTOR_WORDS + area, 2 * SECTOR_WORDS)]


def home_of(words: array[int]) -> int:
    """The area that has the pages."""
    closed = closed_of(words)
    turn = 1 if closed[0] and not closed[1] else 2 if closed[1] and not closed[2] else 0
    return 0 if turn == 0 else 1


def has_only_pages(flash: Path) -> bool:
    """Whether each page is there once at most, and the other area is blank."""
    words = array("I", content_of(flash))
    home = home_of(words)
    starts = range(home * SECTOR_WORDS, home * SECTOR_WORDS + SLOTS * SLOT_WORDS, SLOT_WORDS)
    pages = [words[at + 16] for at, is_whole in zip(starts, slots(words, home)) if is_whole]
    is_clean = False not in slots(words, home) and len(set(pages)) == len(pages)
    return is_clean and set(slots(words, 1 - home)) == {None}


def slots(words: array[int], area: int) -> list[bool | None]:
    """The slots of an area: whole or not; None for a blank one."""
    found: list[bool | None] = []
    for at in range(area * SECTOR_WORDS, area * SECTOR_WORDS + SLOTS * SLOT_WORDS, SLOT_WORDS):
        mark = words[at + SLOT_WORDS - 2 : at + SLOT_WORDS].tolist()
        is_blank = all(it == BLANK for it in words[at : at + SLOT_WORDS])
        found.append(None if is_blank else mark == MARK)
    return found
