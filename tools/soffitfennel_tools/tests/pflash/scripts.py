"""Scripts on the card over the example's flash: they print what they print on the bench, and take no more stack than
the bound."""
from __future__ import annotations

import os
import subprocess
from concurrent.futures import ThreadPoolExecutor
from pathlib import Path

from ...chips.targets import TARGETS, Target
from ..chip.building import lacks
from ..chip.playing import Script, serial, started
from ..chip.running import stored_scripts
from .building import CHIP, HOST, Room, library, made

CHIPS = (HOST.name, "cortex-m4", CHIP.name)
# the largest frame of C below a call of the card, and the C above it, in bytes
MOST_OF_C = 256


def by_bench(room: Room, lines: list[str]) -> list[str]:
    """What a script prints on the bench."""
    text = "".join(f"{it}\n" for it in lines)
    return subprocess.run([room.bench], input=text, capture_output=True, text=True, check=False).stdout.splitlines()


def on_card(target: Target, program: Path, lines: list[str]) -> tuple[list[str], int]:
    """What a script prints on a new card, and the bytes of stack that were in use at most."""
    printed: list[str] = []
    with started(target, program) as port:
        script = Script(port)
        try:
            printed += [text for line in lines if (text := script.run(line)) is not None]
        except serial.Stopped as why:
            return [*printed, f"stopped: {why}"], 0
        return printed, int.from_bytes(port.ask(serial.USE)[1][4:], "big")


def uncut() -> dict[str, list[str]]:
    """The stored scripts without cuts: those of the bench count writes, and here nothing sets them."""
    return {name: lines for name, lines in stored_scripts() if not any(it.startswith("cut ") for it in lines)}


def compare_host(
    room: Room, port: Room, drivers: tuple[str, str], over: str, more: dict[str, list[str]] | None = None,
) -> None:
    """The duties of a port's functions over the first flash; and the stored scripts, and more if given, on its card
    over the second one, on this machine."""
    out, _ = library(port, HOST.name)
    duties = made(port, HOST.name, out, drivers[0], "duties")
    tried = subprocess.run([duties], capture_output=True, text=True, check=False)
    room.checks.check(tried.stdout.endswith(" passed, 0 failed\n"), f"the duties over {over}", tried.stdout)
    program, scripts = made(port, HOST.name, out, drivers[1], "card"), uncut() | (more or {})
    with ThreadPoolExecutor(os.cpu_count()) as pool:
        ran = list(pool.map(lambda it: on_card(HOST, program, it)[0], scripts.values()))
    for (name, lines), printed in zip(scripts.items(), ran):
        room.checks.same(printed, by_bench(room, lines), f"{name} over {over}")


def compare(room: Room) -> None:
    """Compares the stored scripts without cuts."""
    scripts = uncut()
    wanted = {name: by_bench(room, lines) for name, lines in scripts.items()}
    for name in CHIPS:
        target = TARGETS[name]
        if missing := lacks(target):
            room.checks.skip(f"the card over a flash on {name}", f"{missing} isn't installed")
            continue
        out, bounds = library(room, name)
        program = made(room, name, out, "flash.c", "card")
        with ThreadPoolExecutor(os.cpu_count()) as pool:
            ran = list(pool.map(lambda it: on_card(target, program, it), scripts.values()))
        for script, (printed, _) in zip(scripts, ran):
            room.checks.same(printed, wanted[script], f"{script} on {name}")
        if bounds:
            deepest, most = max(stack for _, stack in ran), max(it.size for it in bounds.values()) + MOST_OF_C
            room.checks.check(0 < deepest <= most, f"{name} took {deepest} bytes of stack, and the bound is {most}")
        print(f"{len(scripts)} scripts on {name}", flush=True)
