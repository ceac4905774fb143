"""The numbers of docs/FLASH.md: each is what the tools build, or a little more."""
from __future__ import annotations

import re
import subprocess
import tempfile
from pathlib import Path

from ...chips.building import bounds, compiled, rewritten, text_of
from ...chips.targets import TARGETS
from ...narrowing.building import TOP
from ..chip.building import SMALL
from ..chip.page import MORE
from .building import Room

PAGE = TOP / "docs" / "FLASH.md"
ROW = re.compile(r"^\| `([\w-]+)`: code; stack, with a table of 2,048 bytes \| ([\d,]+); ([\d,]+) bytes \|$", re.M)


def compare(room: Room) -> None:
    """Compares the row of a chip."""
    shown = ROW.search(PAGE.read_text(encoding="utf-8"))
    room.checks.same(shown and shown[1], SMALL, "the chip of docs/FLASH.md")
    if not shown:
        return
    target = TARGETS[SMALL]
    with tempfile.TemporaryDirectory(dir=room.folder) as name:
        folder = Path(name)
        made = compiled(rewritten(text_of(room.port, False, folder), target), target, folder)
        ran = subprocess.run(["size", made], capture_output=True, text=True, check=True)
        code, data, zero = map(int, ran.stdout.splitlines()[1].split()[:3])
        room.checks.same((data, zero), (0, 0), "static data of the card")
        stack = max(it.size for it in bounds(target, folder).values())
    numbers = [int(it.replace(",", "")) for it in shown.groups()[1:]]
    is_so = all(size <= it <= size * MORE for size, it in zip((code, stack), numbers))
    room.checks.check(is_so, "the sizes on docs/FLASH.md", f"{numbers} on the page, {[code, stack]} measured")
