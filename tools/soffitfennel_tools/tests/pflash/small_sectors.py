"""A card over a flash with small sectors, of which each step of a move has one: it prints what the bench prints, also
where the flash has program units and worn sectors."""
from __future__ import annotations

from ...porting.slots import PAGES, SECTOR_WORDS, SLOTS, SPARE_SECTORS, UNIT
from ..chip.building import lacks
from ..chip.kills import RIGHT, SELECT, update
from ..chip.units import CHIP, PORT, tool
from .building import HOST, Room, room_of_port
from .scripts import compare_host
from .spare_units import DRIVERS

# each kind of flash: what is asked for, and the trait of its device
KINDS: dict[str, tuple[list[object], str]] = {
    "sector_moves::SectorFlash": ([], "DeviceFlash"),
    "program_units::SmallUnitDevice": (["--unit", 32], "DeviceUnits"),
    "spare_sectors::SmallSpareDevice": (["--spares", 5], "DeviceSectors"),
    "spare_units::SmallSpareUnitDevice": (["--unit", 32, "--spares", 5], "DeviceSectors"),
}
# updates whose records fill an area and more, so that all pages move
UPDATES = 1000


def compare_port(room: Room) -> None:
    """tools/port writes such a port, with the numbers that were asked for, and with the board for it."""
    asked: list[object] = ["--flash", "--small-sectors", "--pages", 1536, "--slots", 5100, "--sector-words", 1024]
    for at, (trait, (words, device)) in enumerate(KINDS.items()):
        port = room.folder / f"small-port-{at}"
        ran = tool(PORT, *asked, *words, port)
        what = f"tools/port --small-sectors {words}"
        room.checks.same((ran.returncode, ran.stdout, ran.stderr), (0, f"{port}\n", ""), what)
        sizes = [(PAGES, ["1536"]), (SLOTS, ["5100"]), (SECTOR_WORDS, ["1024"])]
        sizes += [(UNIT, ["8"])] * ("--unit" in words) + [(SPARE_SECTORS, ["5"])] * ("--spares" in words)
        for size, wanted in sizes:
            for place, number in size.places.items():
                found = number.findall((port / place).read_text(encoding="utf-8"))
                room.checks.same(found, wanted, f"{what}: the {size.what} in {place}")
        room.checks.same([str(it) for it in port.rglob("*.in")], [], f"{what}: no template is left")
        law = (port / "crates/device_flash/src/small.rt").read_text(encoding="utf-8")
        has_law = f"use {trait};" in law and f"impl {trait.split('::')[1]} for {device} {{" in law
        room.checks.check(has_law, f"{what}: the law of {trait}", law)
        board = (port / "crates/card_device/src/board.rt").read_text(encoding="utf-8")
        is_small = "SectorBoard" in board and "flash_board::" not in board
        room.checks.check(is_small, f"{what}: the board for small sectors", board)


def compare_mistakes(room: Room) -> None:
    """What it refuses. By hand: 1,024 pages take 64 steps.

    Their sectors of 512 words have 1,638 slots and a part. With 1,716 slots an area has 68 sectors, and 1,639 + 68 + 9
    slots aren't below 1,716; with 1,717 they are. With sectors of 360 words a renewal takes more: with 1,364 slots an
    area has 76 sectors, and 1,280 + 76 + 9 are more than 1,364; with 1,365 they aren't.

    Over units, those of 1,024 words have 32 frames, 2,048 in all. With 2,124 slots and the mark's an area has 67
    sectors, and 2,048 + 67 + 9 aren't below 2,124; with 2,125 they are. Beside spares, those of 512 words have 25
    slots, 1,600 in all. With 1,677 slots an area has 68 sectors, and 1,600 + 68 + 9 aren't below 1,677."""
    both = ["--unit", 8, "--spares", 4]
    cases: tuple[tuple[list[object], str], ...] = (
        (["--sector-words", 65_536], "too many slots"),
        (["--sector-words", 359], "small sectors have at least 360 words"),
        (["--sector-words", 512], "at least 1,717 slots"),
        (["--sector-words", 512, "--slots", 1716], "at least 1,717 slots"),
        (["--sector-words", 360, "--slots", 1364], "at least 1,365 slots"),
        (["--unit", 8], "too many slots"),
        (["--unit", 8, "--sector-words", 544], "with units small sectors have at least 576 words"),
        (["--unit", 8, "--sector-words", 1024, "--slots", 2124], "at least 2,125 slots"),
        (["--spares", 4, "--sector-words", 359], "small sectors have at least 360 words"),
        (["--spares", 4, "--sector-words", 512, "--slots", 1677], "at least 1,678 slots"),
        (["--spares", 65_400, "--sector-words", 512, "--slots", 1678], "are too many"),
        ([*both, "--sector-words", 544], "with units small sectors have at least 576 words"),
        ([*both, "--sector-words", 1024, "--slots", 2124], "at least 2,125 slots"),
    )
    for words, why in cases:
        ran = tool(PORT, "--flash", "--small-sectors", *words, room.folder / "new")
        lines = ran.stderr.splitlines()
        is_so = ran.returncode == 2 and len(lines) == 1 and why in lines[0]
        room.checks.check(is_so, f"tools/port --small-sectors {words}", ran.stderr)
    ran = tool(PORT, "--small-sectors", room.folder / "new")
    room.checks.check(ran.returncode == 2 and "give --flash too" in ran.stderr, "without --flash", ran.stderr)


def compare_least(room: Room) -> None:
    """The least sizes that aren't refused."""
    cases: tuple[tuple[list[object], int, int], ...] = (
        ([], 512, 1717), ([], 360, 1365), (["--unit", 8], 1024, 2125), (["--spares", 4], 512, 1678),
    )
    for at, (words, sector_words, slots) in enumerate(cases):
        least = room.folder / f"least-port-{at}"
        sizes = ("--sector-words", sector_words, "--slots", slots)
        ran = tool(PORT, "--flash", "--small-sectors", *words, *sizes, least)
        wanted = (0, f"{least}\n", "")
        room.checks.same((ran.returncode, ran.stdout, ran.stderr), wanted, f"the least slots: {words} {sizes}")


def compare_edited(room: Room) -> None:
    """tools/chip refuses a port whose sectors are no longer small. By hand: 1,040 pages take 65 steps, whose sectors of
    512 words have 1,664 slots. With 1,742 slots an area has 69 sectors, and 1,664 + 69 + 9 aren't below 1,742."""
    port = room.folder / "least-port-0"
    slots = port / "crates/device_flash/src/slots.rt"
    text = slots.read_text(encoding="utf-8")
    slots.write_text(text.replace("PAGES: u16 = 1024", "PAGES: u16 = 1040"), encoding="utf-8")
    ran = tool(CHIP, "x86-64", "--port", port)
    is_so = ran.returncode == 1 and "an area has at least 1,743 slots" in ran.stderr
    room.checks.check(is_so and len(ran.stderr.splitlines()) == 1, "tools/chip over more pages", ran.stderr)


def compare(room: Room) -> None:
    """The ports; the duties of two of them; and the stored scripts and moves on their cards."""
    compare_port(room)
    compare_mistakes(room)
    compare_least(room)
    compare_edited(room)
    if missing := lacks(HOST):
        room.checks.skip("the card over small sectors", f"{missing} isn't installed")
        return
    more = {"moves": ["on", SELECT, RIGHT, *map(update, range(UPDATES))]}
    compare_host(room, room_of_port(room, "small"), ("flash.c", "flash.c"), "small sectors", more)
    worn = room_of_port(room, "small-spare-units", DRIVERS)
    compare_host(room, worn, DRIVERS, "small worn sectors with units", more)
