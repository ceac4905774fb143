"""A card on a flash of qemu is killed at random moments: it always starts, what it answered is there, and no try of a
PIN is given back."""
from __future__ import annotations

import os
import random
import subprocess
import threading
import time
from concurrent.futures import ThreadPoolExecutor
from contextlib import closing
from dataclasses import dataclass, field
from pathlib import Path

from ..chip.building import lacks
from ..chip.kills import DONE, READ, RIGHT, RIGHT_2, SELECT, TRIES, WRONG_2, tries_in, update
from ..chip.playing import Script, serial
from .building import CHIP, DRIVER, Room, library, made
from .emulating import Seen, content_of, emulator, look_at, new_flash, port_of

ALL_TRIES, SEED = 3, 20_261_128
# RESET RETRY COUNTER of PIN 2, by the factory card's unblocking value
UNBLOCK_2 = "apdu 002C000210313233343536373831323334FFFFFFFF"
# the longest life, in seconds: power-on takes 0.1, in a move 0.3, an update 0.005, and a whole move 2
SHORT, LONG, PART_OF_LONG = 0.5, 3.5, 0.4


@dataclass
class Known:
    """What a card has to have: the number in its file, and the tries of PIN 2; several where a command was cut."""

    numbers: set[int] = field(default_factory=lambda: {0})
    tries: set[int] = field(default_factory=lambda: {ALL_TRIES})


@dataclass
class Told:
    """What happened to a card."""

    lives: int = 0
    starts: int = 0
    answers: int = 0
    moves: int = 0
    torn: int = 0
    wrong: list[str] = field(default_factory=list)


class Life:
    """A life of the card, from power-on until it is killed."""

    def __init__(self, script: Script, known: Known, told: Told, chance: random.Random):
        self.script, self.known, self.told, self.chance = script, known, told, chance

    def has(self, is_so: bool, what: str) -> None:
        """Notes what isn't as it has to be."""
        if not is_so:
            self.told.wrong.append(f"life {self.told.lives}: {what}")

    def begin(self) -> None:
        """Powers the card on, and compares what it has."""
        answer = self.script.run("on")
        self.has((answer or "").startswith("atr "), f"power-on: {answer}")
        self.told.starts += 1
        self.has(self.script.run(SELECT) == DONE, "SELECT")
        read, tries = self.script.run(READ) or "", tries_in(self.script.run(TRIES))
        number = int(read[2:10], 16) if read.endswith("9000") else -1
        self.has(number in self.known.numbers, f"{number} is in the file, and {self.known.numbers} may be")
        self.has(tries in self.known.tries, f"{tries} tries are left, and {self.known.tries} may be")
        self.known.numbers, self.known.tries = {number}, {tries}
        self.has(self.script.run(RIGHT) == DONE, "VERIFY of PIN 1")

    def step(self) -> None:
        """A command that changes the card. What may be there is noted before it, and what is there behind it."""
        (number,), (tries,) = self.known.numbers, self.known.tries
        kind = self.chance.randrange(10)
        if tries == 0:
            self.try_pin(UNBLOCK_2, {0, ALL_TRIES}, DONE, ALL_TRIES)
        elif kind == 0 and tries > 1:
            self.try_pin(WRONG_2, {tries, tries - 1}, f"< 63C{tries - 1}", tries - 1)
        elif kind == 1:
            self.try_pin(RIGHT_2, {tries, tries - 1, ALL_TRIES}, DONE, ALL_TRIES)
        else:
            self.known.numbers = {number, number + 1}
            answer = self.script.run(update(number + 1))
            self.has(answer == DONE, f"UPDATE BINARY: {answer}")
            self.known.numbers = {number + 1}
        self.told.answers += 1

    def try_pin(self, command: str, may_be: set[int], wanted: str, tries: int) -> None:
        """Presents a PIN."""
        self.known.tries = may_be
        answer = self.script.run(command)
        self.has(answer == wanted, f"{command[5:17]}: {answer}, and {wanted} is due")
        self.known.tries = {tries}


def live(program: Path, flash: Path, known: Known, told: Told, chance: random.Random) -> None:
    """A life that is killed at a random moment: in power-on, in a command, or in a move."""
    seconds = chance.uniform(0, LONG if chance.random() < PART_OF_LONG else SHORT)
    from_power_on, told.lives = chance.random() < 0.3, told.lives + 1
    with emulator(program, flash) as process:
        timer = threading.Timer(seconds, process.kill)
        try:
            # (a pseudo-terminal that is not open yet may be another card's behind the kill)
            with closing(serial.Port(port_of(process))) as port:
                if from_power_on:
                    timer.start()
                life = Life(Script(port), known, told, chance)
                life.begin()
                if not from_power_on:
                    timer.start()
                while not told.wrong:
                    life.step()
        except (serial.Stopped, OSError):
            # (the port has closed: unless the kill has closed it, something is wrong)
            life_ended(process, told)
        finally:
            timer.cancel()
            process.kill()


def life_ended(process: subprocess.Popen[str], told: Told) -> None:
    """Notes a life that no kill has ended."""
    end = time.monotonic() + serial.PATIENCE
    while process.poll() is None and time.monotonic() < end:
        time.sleep(0.01)
    if process.poll() is None:
        told.wrong.append(f"life {told.lives}: the card is silent")


def look(flash: Path, told: Told) -> Seen:
    """Counts what a kill has left in the flash."""
    seen = look_at(flash)
    told.moves, told.torn = told.moves + seen.is_moving, told.torn + seen.is_torn
    return seen


def stream(program: Path, flash: Path, lives: int, seed: int) -> Told:
    """A card that is killed so often, and then is asked once more."""
    chance, known, told = random.Random(seed), Known(), Told()
    while told.lives < lives and not told.wrong:
        live(program, flash, known, told, chance)
        look(flash, told)
    with emulator(program, flash) as process:
        try:
            if not told.wrong:
                Life(Script(serial.Port(port_of(process))), known, told, chance).begin()
        except (serial.Stopped, OSError) as why:
            told.wrong.append(f"behind the last kill: {why}")
        finally:
            process.kill()
    return told


def made_flash(program: Path, flash: Path) -> bytes:
    """A flash with the factory card, whose file begins with 0."""
    with emulator(program, new_flash(flash)) as process:
        try:
            script = Script(serial.Port(port_of(process)))
            for line in ("on", SELECT, RIGHT, update(0)):
                script.run(line)
        finally:
            process.kill()
    return content_of(flash)


def compare(room: Room, kills: int) -> None:
    """Kills cards side by side."""
    if missing := lacks(CHIP):
        room.checks.skip("kills of a card on a flash of qemu", f"{missing} isn't installed")
        return
    out, _ = library(room, CHIP.name)
    program = made(room, CHIP.name, out, DRIVER, "card")
    content, begun = made_flash(program, room.folder / "first.flash"), time.monotonic()
    streams = min(os.cpu_count() or 1, kills)
    shares = [kills // streams + (it < kills % streams) for it in range(streams)]
    with ThreadPoolExecutor(streams) as pool:
        ran = [
            pool.submit(stream, program, new_flash(room.folder / f"{it}.flash", content), share, SEED + it)
            for it, share in enumerate(shares)
        ]
        tolds = [it.result() for it in ran]
    for it, told in enumerate(tolds):
        room.checks.check(not told.wrong, f"card {it} behind {told.lives} kills", "\n".join(told.wrong))
    sums = {name: sum(getattr(it, name) for it in tolds) for name in ("lives", "starts", "answers", "moves", "torn")}
    room.checks.same(sums["lives"], kills, "each card was killed as often as is due")
    room.checks.check(sums["answers"] > 0, "commands are answered between the kills")
    seen = f"{sums['moves']} in a move, {sums['torn']} with a torn slot in the flash"
    print(f"{kills} kills, {seen}, {sums['answers']} commands answered, {time.monotonic() - begun:.0f} s", flush=True)
