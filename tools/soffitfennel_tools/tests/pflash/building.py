"""The programs that the tests run: the C of a port over a flash."""
from __future__ import annotations

import shutil
import subprocess
import tempfile
from collections.abc import Callable
from concurrent.futures import ProcessPoolExecutor
from dataclasses import dataclass, field
from functools import partial
from pathlib import Path

from ...chips.building import build, text_of
from ...chips.stack import Bound
from ...chips.targets import TARGETS
from ...narrowing.building import TOP
from ...porting import over_flash
from ...porting.over_flash import FLASH_EXAMPLE
from ...porting.writing import EXAMPLE, write_port
from ...programs import program
from ..checks import Checks
from ..chip.building import run

PROGRAMS = TOP / "tools" / "tests" / "pflash_programs"
CHIP, HOST = TARGETS["riscv32"], TARGETS["x86-64"]
# the driver of qemu's board, for make
DRIVER = "pflash.c bank_virt.c"
INCLUDED = tuple(f"-I{it}" for it in (PROGRAMS, FLASH_EXAMPLE, EXAMPLE))
CHECKED = ("-fsanitize=address,undefined", "-fno-sanitize-recover=all")
# the ports that the tests build cards of, by what writes them: words of a unit, and spare sectors
UNIT_WORDS, SPARES = 4, 6
# small sectors of 2 KiB, of which an area has eight behind those of the steps
SMALL_SLOTS, SMALL_WORDS = 1843, 512
# the same of 4 KiB where the flash has units and spare sectors
SMALL_FRAMES, SMALL_FRAME_WORDS = 2303, 1024
FILLS: dict[str, Callable[[Path], None]] = {
    "flash": over_flash.fill,
    "units": partial(over_flash.fill, unit=UNIT_WORDS),
    "spares": partial(over_flash.fill, spares=SPARES),
    "spare-units": partial(over_flash.fill, unit=UNIT_WORDS, spares=SPARES),
    "small": partial(over_flash.fill, slots=SMALL_SLOTS, sector_words=SMALL_WORDS, small=True),
    "forgets": partial(over_flash.fill, forgets=True),
    "small-forgets": partial(
        over_flash.fill, slots=SMALL_SLOTS, sector_words=SMALL_WORDS, small=True, forgets=True,
    ),
    "small-spare-units": partial(
        over_flash.fill, slots=SMALL_FRAMES, sector_words=SMALL_FRAME_WORDS, unit=UNIT_WORDS, spares=SPARES, small=True,
    ),
}


@dataclass
class Room:
    """A folder of the tests, with a port over a flash, and the libraries that were built of it."""

    folder: Path
    checks: Checks
    bench: str
    built: dict[str, tuple[Path, dict[str, Bound]]] = field(default_factory=dict)

    @property
    def port(self) -> Path:
        """The port."""
        return self.folder / "port"

    @property
    def device(self) -> Path:
        """Its C."""
        return self.port / "device"


def room_of(folder: Path) -> Room:
    """A room with a port, and the image of the factory card."""
    bench = program("--quiet", "--for-cards")
    write_port(folder / "port", over_flash.fill)
    subprocess.run([bench, "--card", folder / "factory.card"], stdin=subprocess.DEVNULL, check=True)
    return Room(folder, Checks(), bench)


def room_of_port(room: Room, name: str, drivers: tuple[str, ...] = ()) -> Room:
    """A room whose port is another one, with flashes of the tests beside its C."""
    folder = room.folder / f"card-{name}"
    folder.mkdir()
    write_port(folder / "port", FILLS[name])
    for it in drivers:
        shutil.copyfile(PROGRAMS / it, folder / "port/device" / it)
    shutil.copyfile(room.folder / "factory.card", folder / "factory.card")
    return Room(folder, room.checks, room.bench)


def build_module(folder: Path, name: str) -> None:
    """Builds the module of a port. It is kept by its sources."""
    write_port(folder / f"module-{name}", FILLS[name])
    with tempfile.TemporaryDirectory(dir=folder) as place:
        text_of(folder / f"module-{name}", False, Path(place))


def build_modules(folder: Path, names: set[str]) -> None:
    """Builds the modules of ports side by side, in processes: each has an environment of its own."""
    with ProcessPoolExecutor() as pool:
        for it in [pool.submit(build_module, folder, name) for name in sorted(names)]:
            it.result()


def library(room: Room, name: str) -> tuple[Path, dict[str, Bound]]:
    """The card's library for a processor, in a folder with the factory card; and the bounds of its stack. It is built
    once."""
    if name in room.built:
        return room.built[name]
    out = room.folder / name
    with tempfile.TemporaryDirectory(dir=room.folder) as place:
        built = build(room.port, TARGETS[name], out, False, Path(place))
    (out / "factory.card").write_bytes((room.folder / "factory.card").read_bytes())
    room.built[name] = out, built.bounds
    return room.built[name]


def made(room: Room, name: str, out: Path, device: str, what: str) -> Path:
    """A program of the port, by its Makefile."""
    folder = room.folder / f"{name}-{device.split('.')[0]}"
    folder.mkdir(exist_ok=True)
    run("make", "-s", "-C", room.device, f"CHIP={name}", f"LIBRARY={out}", f"OUT={folder}", f"DEVICE={device}", what)
    return folder / f"{what}.elf"


def by_host(sources: list[Path], program_: Path, *words: str) -> str:
    """What a C program prints on this machine."""
    run("cc", *words, "-O1", *INCLUDED, *sources, "-o", program_)
    ran = subprocess.run([program_], capture_output=True, text=True, check=False)
    return ran.stdout + ran.stderr
