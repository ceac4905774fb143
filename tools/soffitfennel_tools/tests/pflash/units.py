"""What tools/port and tools/chip refuse of a port over a flash, and what such a port holds."""
from __future__ import annotations

import os
import shutil

from ...chips.module import FLASH as CRATE
from ...porting.slots import PAGES, SECTOR_WORDS, SLOTS
from ...porting.over_flash import OWN_ON_FLASH, code, fill
from ...porting.writing import needed, write_port
from ..chip.units import CHIP, PORT, tool
from .building import Room


def compare_port(room: Room) -> None:
    """A port is whole, with the numbers that were asked for."""
    for name in [*needed(OWN_ON_FLASH), *(it.split()[0] for it in OWN_ON_FLASH)]:
        room.checks.check((room.port / "crates" / name / "src/lib.rt").is_file(), f"the port has the crate {name}")
    room.checks.same([str(it) for it in room.port.rglob("*.in")], [], "no template is left")
    came = sorted(it.name for it in room.device.iterdir() if it.is_file())
    room.checks.same(came, sorted(code()), "the C of the port")
    room.checks.check("device.c" not in came and "boards.mk" in came, "the C of a board is not there", str(came))
    larger = room.folder / "larger"
    ran = tool(PORT, "--flash", "--pages", 1536, "--slots", 2048, "--sector-words", 1024, larger)
    room.checks.same((ran.returncode, ran.stdout), (0, f"{larger}\n"), "tools/port --pages --slots --sector-words")
    numbers = ((PAGES, ["1024", "1536"]), (SLOTS, ["1280", "2048"]), (SECTOR_WORDS, ["65536", "1024"]))
    for size, wanted in numbers:
        for place, number in size.places.items():
            found = [number.findall((port / place).read_text(encoding="utf-8")) for port in (room.port, larger)]
            room.checks.same(found, [[it] for it in wanted], f"the {size.what} in {place}")


def compare_make(room: Room) -> None:
    """The README's make takes no words: it has a rule for each program."""
    ran = tool("make", "-n", "-C", room.device)
    room.checks.same((ran.returncode, ran.stderr), (0, ""), "make in the C of a port")
    for name in ("card", "duties"):
        room.checks.check(f"/{name}.elf " in ran.stdout, f"make builds {name}.elf", ran.stdout)


def compare_notes(room: Room) -> None:
    """A port with too few slots for short writes is written, and a note says how many would do (docs/FLASH.md, "The
    pause"). By hand: 4,096 pages need 4,096 + 512 + 9 slots and one for each of 2 sectors. 1,024 need 1,161 and one for
    each sector: with sectors of 64 words 1,689 slots have 528; in frames of 32 words 2,323 slots have 1,162."""
    cases: tuple[tuple[list[object], str], ...] = (
        ([], ""),
        (["--pages", 4096, "--slots", 4352], "4,619"),
        (["--pages", 4096, "--slots", 4618], "4,619"),
        (["--pages", 4096, "--slots", 4619], ""),
        (["--sector-words", 64, "--slots", 1688], "1,689"),
        (["--sector-words", 64, "--slots", 1689], ""),
        (["--unit", 4, "--sector-words", 64], "2,323"),
        (["--unit", 4, "--sector-words", 64, "--slots", 2323], ""),
    )
    for at, (words, least) in enumerate(cases):
        port = room.folder / f"noted{at}"
        ran = tool(PORT, "--flash", *words, port)
        note = f"with fewer than {least} slots a write may move all pages: see docs/FLASH.md, The pause"
        wanted = (0, f"{port}\n", f"tools/port: note: {note}\n" if least else "")
        room.checks.same((ran.returncode, ran.stdout, ran.stderr), wanted, f"tools/port --flash {words}")
        shutil.rmtree(port, ignore_errors=True)


def compare_mistakes(room: Room) -> None:
    """The tools say in one line what is wrong, and nothing is left behind."""
    link = room.folder / "link"
    link.symlink_to(room.folder / "elsewhere")
    before = sorted(os.listdir(room.folder))
    # (no folder can be made in /proc)
    cases: tuple[tuple[list[object], str], ...] = (
        (["--flash", room.port], "is there already"),
        (["--flash", link], "is there already"),
        (["--flash", room.folder / "a/b"], "there is no folder"),
        (["--flash", room.port / "crates.txt/new"], "there is no folder"),
        (["--flash", "/proc/new"], "No such file"),
        (["--flash"], "required: FOLDER"),
        (["--slots", 2048, room.folder / "new"], "give --flash too"),
        (["--sector-words", 1024, room.folder / "new"], "give --flash too"),
        (["--pages", 2048, room.folder / "new"], "give --flash too"),
        (["--flash", "--pages", 1023, room.folder / "new"], "at least 1,024 pages"),
        (["--flash", "--pages", 4097, room.folder / "new"], "from 1 to 4096"),
        (["--flash", "--pages", 1500, "--slots", 2048, room.folder / "new"], "no multiple of 16"),
        (["--flash", "--pages", 2048, "--slots", 2303, room.folder / "new"], "at least 2,304 slots"),
        (["--flash", "--sector-words", 63, room.folder / "new"], "at least 64 words"),
        (["--flash", "--sector-words", "many", room.folder / "new"], "from 1 to 16777216"),
        (["--flash", "--slots", 1279, room.folder / "new"], "at least 1,280 slots"),
        (["--flash", "--slots", 65536, room.folder / "new"], "from 1 to 65535"),
        (["--flash", "--slots", "many", room.folder / "new"], "from 1 to 65535"),
    )
    for words, why in cases:
        ran = tool(PORT, *words)
        lines = ran.stderr.splitlines()
        is_so = ran.returncode in (1, 2) and len(lines) == 1 and why in lines[0]
        room.checks.check(is_so, f"tools/port {words}", ran.stderr)
    room.checks.same(sorted(os.listdir(room.folder)), before, "nothing is left of a port that isn't written")


def compare_slots(room: Room) -> None:
    """tools/chip refuses a port whose header and crate have other numbers."""
    changes = (
        ("device/card_device.h", "FLASH_SLOTS = 1280", "FLASH_SLOTS = 1281", "two numbers of slots"),
        (f"crates/{CRATE}/src/slots.rt", "u16 = 1280", "u16 = 2048", "two numbers of slots"),
        ("device/card_device.h", "FLASH_SLOTS = 1280", "FLASH_SLOTS = 1000", "no number of slots"),
        ("device/card_device.h", "FLASH_SLOTS = 1280", "FLASH_SLOTS = MANY", "no number of slots"),
        ("device/card_device.h", "SECTOR_WORDS = 65536", "SECTOR_WORDS = 1024", "two numbers of words of a sector"),
        ("device/card_device.h", "SECTOR_WORDS = 65536", "SECTOR_WORDS = 32", "no number of words of a sector"),
        (f"crates/{CRATE}/src/slots.rt", "PAGES: u16 = 1024", "PAGES: u16 = 4112", "no number of pages"),
        (f"crates/{CRATE}/src/slots.rt", "PAGES: u16 = 1024", "PAGES: u16 = 1040", "at least 1,296 slots"),
    )
    for at, (place, old, new, why) in enumerate(changes):
        port = room.folder / f"slots{at}"
        write_port(port, fill)
        text = (port / place).read_text(encoding="utf-8")
        room.checks.check(old in text, f"{place} has {old}")
        (port / place).write_text(text.replace(old, new), encoding="utf-8")
        ran = tool(CHIP, "x86-64", "--port", port)
        lines = ran.stderr.splitlines()
        is_so = ran.returncode == 1 and len(lines) == 1 and why in lines[0]
        room.checks.check(is_so, f"tools/chip over {new}", ran.stderr)


def compare_image(room: Room) -> None:
    """tools/chip refuses an image with more pages than the board on a flash has."""
    larger = room.folder / "larger.card"
    larger.write_bytes(bytes(64 * 1025))
    ran = tool(CHIP, "x86-64", "--port", room.port, "--card", larger)
    is_so = ran.returncode == 1 and "more pages than the board on a flash, 1,024\n" in ran.stderr
    room.checks.check(is_so and len(ran.stderr.splitlines()) == 1, "tools/chip --card", ran.stderr)


def compare(room: Room) -> None:
    """All of them."""
    for it in (compare_port, compare_make, compare_notes, compare_mistakes, compare_slots, compare_image):
        it(room)
