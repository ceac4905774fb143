"""The programs that the tests run: examples/chip with a device that cuts, over each form of the card's module."""
from __future__ import annotations

import shutil
import subprocess
import tempfile
from concurrent.futures import ThreadPoolExecutor
from dataclasses import dataclass, field
from pathlib import Path

from ...chips.building import LIBRARY, bounds, compiled, rewritten, text_of
from ...chips.low import low
from ...chips.module import CARD
from ...chips.stack import Bound
from ...chips.targets import TARGETS, Target
from ...narrowing.building import TOP
from ...narrowing.rewriting import Rewriting
from ...porting.writing import EXAMPLE, write_port
from ...programs import program
from ..checks import Checks

PROGRAMS = TOP / "tools" / "tests" / "chip_programs"
HOST = TARGETS["x86-64"]
# the chip with 8 KiB of RAM and 64 KiB of ROM, and what is added to the name of a program with a main loop of its own
SMALL, BY_CALLS = "cortex-m4", " by calls"
WARNINGS = ("-std=gnu11", "-Wall", "-Wextra", "-Werror")


class Failed(Exception):
    """A program of the tests wasn't built."""


@dataclass
class Room:
    """A folder of the tests: the port, its module, and what was built of it."""

    folder: Path
    checks: Checks
    bench: str
    text: str
    bounds: dict[str, dict[str, Bound]] = field(default_factory=dict)

    @property
    def port(self) -> Path:
        """The port that the module is of."""
        return self.folder / "port"


def room_of(folder: Path) -> Room:
    """A room with a port of tools/port, its module, and the image of the factory card."""
    bench = program("--quiet", "--for-cards")
    write_port(folder / "port")
    with tempfile.TemporaryDirectory(dir=folder) as name:
        text = text_of(folder / "port", False, Path(name))
    subprocess.run([bench, "--card", folder / "factory.card"], stdin=subprocess.DEVNULL, check=True)
    return Room(folder, Checks(), bench, text)


def lacks(target: Target) -> str | None:
    """The program that a target needs and this machine doesn't have."""
    needed = (f"{target.prefix}gcc", *target.emulator[:1])
    return next((it for it in needed if not shutil.which(it)), None)


def run(*words: object, folder: Path | None = None) -> None:
    """Runs a command that must pass."""
    ran = subprocess.run([str(it) for it in words], cwd=folder, capture_output=True, text=True, check=False)
    if ran.returncode:
        raise Failed(f"{words[0]} ended with status {ran.returncode}\n{ran.stdout}{ran.stderr}")


def object_of(room: Room, target: Target, text: str, name: str) -> Path:
    """The object of a module that is rewritten."""
    folder = room.folder / name
    folder.mkdir(exist_ok=True)
    return compiled(text, target, folder)


def chip_program(room: Room, target: Target) -> Path:
    """The card on a chip, by the Makefile of the example."""
    made = object_of(room, target, rewritten(room.text, target), target.name)
    room.bounds[target.name] = bounds(target, made.parent)
    return linked(room, target, made)


def linked(room: Room, target: Target, made: Path, name: str = "card") -> Path:
    """The card of an object."""
    folder = made.parent
    shutil.copyfile(room.folder / "factory.card", folder / "factory.card")
    shutil.copyfile(made, folder / LIBRARY)
    words = [f"CHIP={target.name}", f"LIBRARY={folder}", f"DEVICE={PROGRAMS / 'torn.c'}", name]
    run("make", "-s", "-C", EXAMPLE, *words)
    return folder / f"{name}.elf"


def low_program(room: Room, work: Rewriting | None = None, name: str = "low") -> Path:
    """The rewritten module on this processor, below 4 GiB."""
    made = object_of(room, HOST, low(room.text, work), name)
    program_, sources = made.with_name("card.elf"), [EXAMPLE / it for it in ("main.c", "messages.c", "image.S")]
    words = [*WARNINGS, "-Os", "-no-pie", "-fno-pie", f"-I{EXAMPLE}", f"-Wa,-I{room.folder}", "-Wl,--gc-sections"]
    run("cc", *words, *sources, PROGRAMS / "torn.c", PROGRAMS / "low.c", made, "-o", program_)
    return program_


def programs(room: Room, targets: list[Target]) -> dict[str, tuple[Target, Path]]:
    """The program of each target, and the rewritten one on this processor."""
    with ThreadPoolExecutor(2) as pool:
        made = {it.name: (it, pool.submit(chip_program, room, it)) for it in targets}
        made["low"] = (HOST, pool.submit(low_program, room))
        return {name: (target, it.result()) for name, (target, it) in made.items()}


def by_calls(room: Room, made: dict[str, tuple[Target, Path]]) -> dict[str, tuple[Target, Path]]:
    """The program with a main loop of its own, for this processor and the small chip."""
    some = {name: it for name, it in made.items() if name in (HOST.name, SMALL)}
    return {
        f"{name}{BY_CALLS}": (target, linked(room, target, program_.with_name(f"{CARD}.o"), "calls"))
        for name, (target, program_) in some.items()
    }
