"""A board is killed while its card is updated: an answered update is there, and no try of a PIN is back."""
from __future__ import annotations

import random
import subprocess
import threading
from pathlib import Path

from ...chips.targets import TARGETS
from .building import Room, lacks
from .duties import kept
from .playing import QUIET, Script, board, serial

CHIP = TARGETS["riscv32"]
# PIN 1 allows the updates, and a wrong value of PIN 2 costs a try
RIGHT, RIGHT_2, WRONG_2 = (f"apdu 002000{it}FFFFFFFF" for it in ("010831323334", "020831323334", "020830303030"))
SELECT, READ, TRIES = "apdu 00A4000C022FE2", "apdu 00B0000004", "apdu 00200002"
DONE, ALL_TRIES = "< 9000", 3


def update(number: int) -> str:
    """UPDATE BINARY of four bytes."""
    return f"apdu 00D6000004{number:08X}"


def tries_in(answer: str | None) -> int:
    """The tries that an answer reports, by 63Cx (ISO/IEC 7816-4, 11.5.6); -1 for another one."""
    return int(answer[-1], 16) if answer and answer.startswith("< 63C") else 0 if answer == "< 6983" else -1


def looked_at(program: Path, memory: Path) -> tuple[int, int]:
    """The number in the file and the tries of PIN 2, behind a start of the board."""
    with board(CHIP, program, *kept(memory)) as path:
        script = Script(serial.Port(path))
        _, _, read, tries = [script.run(it) for it in ("on", SELECT, READ, TRIES)]
        return int(read[2:10], 16) if read and read.endswith("9000") else -1, tries_in(tries)


def updated_until_kill(program: Path, memory: Path, number: int, seconds: float) -> tuple[int, int]:
    """Updates until the emulator is killed: the last number that was answered, and the tries behind a wrong value."""
    words = [*CHIP.emulator, *QUIET, "-serial", "pty", *kept(memory), "-kernel", str(program)]
    with subprocess.Popen(words, stdout=subprocess.PIPE, text=True) as process:
        assert process.stdout
        script = Script(serial.Port(process.stdout.readline().split()[4]))
        for line in ("on", RIGHT, RIGHT_2, SELECT):
            script.run(line)
        tries = tries_in(script.run(WRONG_2))
        timer = threading.Timer(seconds, process.kill)
        timer.start()
        try:
            while script.run(update(number + 1)) == DONE:
                number += 1
        except (serial.Stopped, OSError):
            # (the port has closed)
            pass
        finally:
            timer.cancel()
            process.kill()
    return number, tries


def compare(room: Room, program: Path, kills: int) -> None:
    """Kills the board at random moments."""
    if missing := lacks(CHIP):
        room.checks.skip("kills of the board", f"{missing} isn't installed")
        return
    chance, memory, number, updates = random.Random(7), room.folder / "card.memory", 0, 0
    with board(CHIP, program, *kept(memory)) as path:
        script = Script(serial.Port(path))
        for line in ("on", RIGHT, SELECT, update(0)):
            script.run(line)
    for kill in range(kills):
        answered, tries = updated_until_kill(program, memory, number, chance.random() / 4)
        found, left = looked_at(program, memory)
        is_so = found in (answered, answered + 1) and tries == left == ALL_TRIES - 1
        what = f"{answered} answered, {found} found, tries {tries}, {left}"
        room.checks.check(is_so, f"kill {kill} of the board", what)
        updates, number = updates + answered - number, max(found, 0)
    room.checks.check(updates > 0, "updates are answered before the kills", str(updates))
    print(f"{kills} kills of the board, {updates} updates answered", flush=True)
