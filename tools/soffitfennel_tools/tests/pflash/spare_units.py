"""A card over a flash with program units and spare sectors: it prints what the bench prints, though sectors are worn,
and programs no unit twice."""
from __future__ import annotations

from ...porting.slots import SECTOR_WORDS, SPARE_SECTORS, UNIT
from ..chip.building import WARNINGS, lacks
from ..chip.units import PORT, tool
from .building import HOST, PROGRAMS, Room, by_host, room_of_port
from .scripts import compare_host

# a flash that traps at a unit that isn't blank, or was programmed since its erase; and one with worn sectors
DRIVERS = SOUND, WORN = "unit_flash.c", "worn_units.c"
SHOWN = "spare_sizes.c"


def compare_port(room: Room) -> None:
    """tools/port writes such a port, with the numbers that were asked for."""
    port = room.folder / "spare-unit-port"
    ran = tool(PORT, "--flash", "--unit", 32, "--spares", 5, "--slots", 2048, "--sector-words", 160, port)
    room.checks.same((ran.returncode, ran.stdout), (0, f"{port}\n"), "tools/port --unit --spares")
    for size, wanted in ((UNIT, ["8"]), (SPARE_SECTORS, ["5"]), (SECTOR_WORDS, ["160"])):
        for place, number in size.places.items():
            found = number.findall((port / place).read_text(encoding="utf-8"))
            room.checks.same(found, wanted, f"the {size.what} in {place}")
    room.checks.same([str(it) for it in port.rglob("*.in")], [], "no template is left")
    shown = by_host([PROGRAMS / SHOWN], room.folder / "shown-units", f"-I{port / 'device'}", *WARNINGS)
    # (a sector has five slots: the 2,048 slots of an area and its close mark take 410; an entry of the map takes one)
    words = 160 * (2 * 410 + 1 + 5)
    room.checks.same(shown, f"410 {words} 160 {words + 160}\n", "the sectors, words and map of the header")


def compare_mistakes(room: Room) -> None:
    """What it refuses."""
    cases: tuple[tuple[list[object], str], ...] = (
        (["--sector-words", 1000], "whole slots of 32 words"),
        (["--sector-words", 2_097_152], "at most 2,097,151 words"),
        (["--spares", 65_533], "are too many"),
        (["--spares", 32_757], "are too many"),
    )
    for words, why in cases:
        ran = tool(PORT, "--flash", "--unit", 8, "--spares", 2, *words, room.folder / "new")
        lines = ran.stderr.splitlines()
        is_so = ran.returncode == 2 and len(lines) == 1 and why in lines[0]
        room.checks.check(is_so, f"tools/port --unit --spares {words}", ran.stderr)


def compare(room: Room) -> None:
    """The port; the duties of its functions over the flash that traps; and the stored scripts over worn sectors."""
    compare_port(room)
    compare_mistakes(room)
    if missing := lacks(HOST):
        room.checks.skip("the card over a flash with units and spare sectors", f"{missing} isn't installed")
        return
    compare_host(room, room_of_port(room, "spare-units", DRIVERS), (SOUND, WORN), "worn sectors with units")
