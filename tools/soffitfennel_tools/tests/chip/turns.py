"""Calls of the card out of turn: each has its number, and changes nothing."""
from __future__ import annotations

import re
import subprocess

from ...chips.building import LIBRARY
from ...porting.writing import EXAMPLE
from .building import HOST, PROGRAMS, WARNINGS, Room, run

ENDED = re.compile(r"turns: (\d+) passed, 0 failed\n")
LEAST = 20


def compare(room: Room) -> None:
    """Makes the calls on this processor."""
    library = room.folder / HOST.name / LIBRARY
    made, sources = room.folder / "turns", [PROGRAMS / "turns.c", EXAMPLE / "image.S", library]
    words = [*WARNINGS, "-Os", "-no-pie", f"-I{EXAMPLE}", f"-Wa,-I{room.folder}", "-Wl,--gc-sections"]
    run("cc", *words, *sources, "-o", made)
    ran = subprocess.run([made], capture_output=True, text=True, check=False)
    found = ENDED.fullmatch(ran.stdout)
    room.checks.check(found is not None and int(found[1]) >= LEAST, "calls out of turn change nothing", ran.stdout)
