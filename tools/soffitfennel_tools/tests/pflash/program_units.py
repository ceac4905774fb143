"""A card over a flash that programs whole units: it prints what the bench prints, and programs no unit twice."""
from __future__ import annotations

from ...porting.slots import PAGES, SECTOR_WORDS, SLOTS, UNIT
from ..chip.building import lacks
from ..chip.units import PORT, tool
from .building import HOST, Room, room_of_port
from .scripts import compare_host

# a flash that traps at a unit that isn't blank, or was programmed since its erase
DRIVER = "unit_flash.c"


def compare_port(room: Room) -> None:
    """tools/port writes such a port, with the numbers that were asked for."""
    port = room.folder / "unit-port"
    ran = tool(PORT, "--flash", "--unit", 32, "--pages", 1536, "--slots", 2048, "--sector-words", 1024, port)
    room.checks.same((ran.returncode, ran.stdout), (0, f"{port}\n"), "tools/port --unit")
    for size, wanted in ((UNIT, ["8"]), (PAGES, ["1536"]), (SLOTS, ["2048"]), (SECTOR_WORDS, ["1024"])):
        for place, number in size.places.items():
            found = number.findall((port / place).read_text(encoding="utf-8"))
            room.checks.same(found, wanted, f"the {size.what} in {place}")
    room.checks.same([str(it) for it in port.rglob("*.in")], [], "no template is left")


def compare_mistakes(room: Room) -> None:
    """What it refuses."""
    cases: tuple[tuple[list[object], str], ...] = (
        (["--unit", 16], "give --flash too"),
        (["--flash", "--unit", 12], "invalid choice"),
        (["--flash", "--unit", 16, "--sector-words", 1000], "whole slots of 32 words"),
        # (a sector has two frames, so 65,535 slots and the close mark take 32,768)
        (["--flash", "--unit", 16, "--sector-words", 64, "--slots", 65_535], "more than 32,767"),
    )
    for words, why in cases:
        ran = tool(PORT, *words, room.folder / "new")
        lines = ran.stderr.splitlines()
        is_so = ran.returncode == 2 and len(lines) == 1 and why in lines[0]
        room.checks.check(is_so, f"tools/port {words}", ran.stderr)


def compare(room: Room) -> None:
    """The port; the duties of its functions over the flash that traps; and the stored scripts on the card."""
    compare_port(room)
    compare_mistakes(room)
    if missing := lacks(HOST):
        room.checks.skip("the card over a flash with units", f"{missing} isn't installed")
        return
    compare_host(room, room_of_port(room, "units", (DRIVER,)), (DRIVER, DRIVER), "a flash with units")
