"""The toolchain takes the flash of a port, with its functions of C named; the card's own crates name none."""
from __future__ import annotations

import os
import shutil
from concurrent.futures import ThreadPoolExecutor
from functools import partial
from pathlib import Path

from ...chips.module import ALLOWED, FLASH
from ...narrowing.building import TOP
from ...porting.over_flash import SPARE_UNITS, fill, own_crates
from ...porting.writing import needed, write_port
from ..chip.proving import checked
from .building import Room

BELOW = needed({FLASH: own_crates(SPARE_UNITS, True)[FLASH]})
# what is asked of tools/port, and how many functions are proved then
FLASHES: dict[str, tuple[dict[str, int], int]] = {
    "the flash of a port": ({}, 15),
    "one that programs whole units": ({"unit": 4}, 17),
    "one with spare sectors": ({"spares": 3, "sector_words": 4096}, 19),
    "one with both": ({"unit": 2, "spares": 3, "sector_words": 4096}, 19),
    "one of small sectors": ({"slots": 1717, "sector_words": 512, "small": True}, 15),
    "one of small sectors with units": ({"unit": 2, "slots": 2125, "sector_words": 1024, "small": True}, 17),
}


def take_libraries(port: Path) -> Path:
    """Gives a port the libraries of the crates below its flash that are built here. Returns the crate of the flash."""
    for name in BELOW:
        built, crate = TOP / "crates" / name / "out", port / "crates" / name
        if built.is_dir() and crate.is_dir():
            shutil.copytree(built, crate / "out", ignore=shutil.ignore_patterns("incremental"))
    return port / "crates" / FLASH


def crate_of(folder: Path, sizes: dict[str, int]) -> Path:
    """The crate of the flash of a new port."""
    write_port(folder, partial(fill, **sizes))
    return take_libraries(folder)


def compare(room: Room) -> None:
    """Proves the flashes side by side."""
    crates = [crate_of(room.folder / f"proved-{at}", sizes) for at, (sizes, _) in enumerate(FLASHES.values())]
    refused = checked(crates[0], {key: it for key, it in os.environ.items() if key != ALLOWED})
    room.checks.check(refused.returncode != 0, f"without {ALLOWED} the flash is refused", refused.stdout)
    environment = {**os.environ, ALLOWED: FLASH}
    with ThreadPoolExecutor(len(crates)) as pool:
        all_ran = list(pool.map(lambda it: checked(it, environment), crates))
    for (what, (_, functions)), ran in zip(FLASHES.items(), all_ran):
        last = (ran.stdout.splitlines() or [""])[-1]
        is_so = ran.returncode == 0 and last.startswith(f"logic=proved functions={functions} foreign={FLASH}::")
        room.checks.check(is_so, f"{what} is proved", ran.stdout + ran.stderr)
