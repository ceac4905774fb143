"""A card on a flash of qemu changes a PIN: its old value is in the flash until a renewal, whatever kills one, and then
nowhere."""
from __future__ import annotations

import random
import shutil
import threading
from array import array
from pathlib import Path

from ..chip.building import lacks
from ..chip.kills import DONE
from ..chip.playing import Script, serial
from .building import CHIP, DRIVER, PROGRAMS, Room, library, made
from .emulating import content_of, emulator, has_only_pages, new_flash, port_of

# the order of renewing.c
RENEW = 5
# PIN 2: its values one after another, the first one the factory's, each padded by FF to eight bytes
VALUES = ("31323334", "35373931", "38363432")
SEED, KILLS = 20_261_129, 6
# the longest time until a kill, in seconds: a renewal takes 2
LONGEST = 2.5


def change(old: str, new: str) -> str:
    """CHANGE REFERENCE DATA of PIN 2."""
    return f"apdu 0024000210{old}FFFFFFFF{new}FFFFFFFF"


def verify(value: str) -> str:
    """VERIFY of PIN 2."""
    return f"apdu 0020000208{value}FFFFFFFF"


def has_word(flash: Path, value: str) -> bool:
    """Whether a word of the flash is this value, of either order of bytes."""
    words = array("I", content_of(flash))
    return int(value, 16) in words or int.from_bytes(bytes.fromhex(value), "little") in words


def play(program: Path, flash: Path, lines: list[str]) -> list[str | None]:
    """What a card prints; then it is off."""
    with emulator(program, flash) as process:
        try:
            script = Script(serial.Port(port_of(process)))
            return [script.run(it) for it in ("on", *lines, "off")]
        finally:
            process.kill()


def renew(program: Path, flash: Path, seconds: float | None = None) -> bytes | None:
    """The result of a renewal; None if it is killed after so many seconds."""
    with emulator(program, flash) as process:
        timer = threading.Timer(seconds or serial.PATIENCE, process.kill)
        try:
            port = serial.Port(port_of(process))
            timer.start()
            reply: bytes = port.ask(RENEW)[1]
            return reply
        except (serial.Stopped, OSError):
            return None
        finally:
            timer.cancel()
            process.kill()


def compare(room: Room) -> None:
    """Changes a PIN, kills renewals, and looks for the old value."""
    if missing := lacks(CHIP):
        room.checks.skip("renewals of a flash of qemu", f"{missing} isn't installed")
        return
    shutil.copyfile(PROGRAMS / "renewing.c", room.device / "renewing.c")
    out, _ = library(room, CHIP.name)
    program = made(room, CHIP.name, out, f"renewing.c {DRIVER}", "card")
    (room.device / "renewing.c").unlink()
    first, old, new = VALUES
    flash, chance = new_flash(room.folder / "renewed.flash"), random.Random(SEED)
    said = play(program, flash, [change(first, old), change(old, new)])
    room.checks.same(said[1:3], [DONE, DONE], "PIN 2 is changed twice")
    room.checks.check(has_word(flash, old), "before a renewal the flash has the old value")
    killed = [renew(program, flash, chance.uniform(0.2, LONGEST)) for _ in range(KILLS)]
    room.checks.check(None in killed, "a renewal is killed")
    said = play(program, flash, [verify(new)])
    room.checks.same(said[1], DONE, "the card is the same behind the kills")
    for turn in range(2):
        room.checks.same(renew(program, flash), b"\0", f"renewal {turn}")
        room.checks.check(not has_word(flash, old), f"behind renewal {turn} the flash has no old value")
        room.checks.check(has_word(flash, new), f"behind renewal {turn} the flash has the value")
        room.checks.check(has_only_pages(flash), f"behind renewal {turn} the flash has each page once, and no more")
    said = play(program, flash, [verify(new), verify(old)])
    room.checks.same(said[1:3], [DONE, "< 63C2"], "the card is the same behind the renewals")
