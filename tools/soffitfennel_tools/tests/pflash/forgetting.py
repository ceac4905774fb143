"""A card that forgets old values of its PINs, on a flash of qemu: behind a change, an unblocking, or a kill in the
middle and the next power-on, no value is in the flash but the one in use."""
from __future__ import annotations

import random
import threading
from contextlib import closing
from dataclasses import dataclass
from pathlib import Path

from ...porting.over_flash import FORGET_TEXTS
from ..chip.building import lacks
from ..chip.kills import DONE, SELECT
from ..chip.playing import Script, serial
from ..chip.units import PORT, tool
from .building import CHIP, DRIVER, HOST, Room, library, made, room_of_port
from .emulating import emulator, new_flash, port_of
from .renewals import VALUES, change, has_word, verify
from .scripts import compare_host

SEED, KILLS = 20_261_201, 12
# the time until a kill behind a change that is sent, in seconds: a command takes 0.02, and a renewal 2
FIRST, LAST = 0.0, 2.5
# RESET RETRY COUNTER of PIN 2, by the factory card's unblocking value, and the value that it gives
FOURTH = "36303735"
UNBLOCK = f"apdu 002C0002103132333435363738{FOURTH}FFFFFFFF"


@dataclass
class Card:
    """A card with the values that PIN 2 has had, but the factory's, which others have too; and those that may be in
    use: two where a command was killed, the later one first."""

    program: Path
    flash: Path
    had: list[str]
    may_be: list[str]

    def answer(self, command: str, seconds: float | None) -> str | None:
        """The answer to a command that gives PIN 2 a value; none if it is killed after so many seconds."""
        with emulator(self.program, self.flash) as process:
            timer = threading.Timer(serial.PATIENCE if seconds is None else seconds, process.kill)
            try:
                with closing(serial.Port(port_of(process))) as port:
                    script = Script(port)
                    script.run("on")
                    timer.start()
                    answer = script.run(command)
                    # (what comes next is answered behind the renewal)
                    script.run(SELECT)
                    return answer
            except (serial.Stopped, OSError):
                return None
            finally:
                timer.cancel()
                process.kill()

    def settle(self) -> list[str | None]:
        """Powers the card on, and finds the value in use: what the commands print."""
        with emulator(self.program, self.flash) as process:
            try:
                with closing(serial.Port(port_of(process))) as port:
                    script = Script(port)
                    printed = [script.run(it) for it in ("on", *map(verify, self.may_be))]
                    self.may_be = [it for it, line in zip(self.may_be, printed[1:]) if line == DONE]
                    return printed
            finally:
                process.kill()

    def left(self) -> set[str]:
        """The values that are in the flash."""
        return {it for it in self.had if has_word(self.flash, it)}

    def old(self) -> set[str]:
        """Those among them that aren't in use."""
        return self.left() - set(self.may_be)


def compare_port(room: Room) -> None:
    """tools/port writes such a port, of both kinds of sectors, and refuses it over a board."""
    kinds: tuple[list[object], ...] = ([], ["--small-sectors", "--slots", 1843, "--sector-words", 512])
    for at, words in enumerate(kinds):
        port = room.folder / f"forgetting-port-{at}"
        ran = tool(PORT, "--flash", "--forget-pins", *words, port)
        what = f"tools/port --forget-pins {words}"
        room.checks.same((ran.returncode, ran.stdout, ran.stderr), (0, f"{port}\n", ""), what)
        for place, texts in FORGET_TEXTS.items():
            text = (port / place).read_text(encoding="utf-8")
            room.checks.check(all(it in text for it in texts.values()), f"{what}: {place}", text)
    ran = tool(PORT, "--forget-pins", room.folder / "no-port")
    wanted = (2, "tools/port: error: --forget-pins is of a flash: give --flash too\n")
    room.checks.same((ran.returncode, "".join(ran.stderr.splitlines(True)[-1:])), wanted, "--forget-pins over a board")


def compare_kills(room: Room, card: Card) -> None:
    """Kills the card behind changes, and looks for each value that isn't in use behind the next power-on: the one
    before, or where a change was rolled back the one that was to come."""
    chance, seen = random.Random(SEED), 0
    for kill in range(KILLS):
        new = f"39{kill:02d}" + "".join(f"3{chance.randrange(10)}" for _ in range(2))
        answer = card.answer(change(card.may_be[0], new), chance.uniform(FIRST, LAST))
        room.checks.check(answer in (None, DONE), f"kill {kill}: {answer}")
        card.had, card.may_be = [*card.had, new], [new, *card.may_be]
        before = card.left()
        printed = card.settle()
        room.checks.same(len(card.may_be), 1, f"kill {kill}: one value is in use: {printed}")
        seen += bool(before - set(card.may_be))
        room.checks.same(card.old(), set(), f"kill {kill}: no other value is in the flash")
    room.checks.check(seen > 0, "a kill leaves an old value until power-on")


def compare(room: Room) -> None:
    """Changes PIN 2 on both kinds of sectors."""
    compare_port(room)
    if missing := lacks(HOST):
        room.checks.skip("a card on small sectors that forgets", f"{missing} isn't installed")
    else:
        small = room_of_port(room, "small-forgets")
        compare_host(room, small, ("flash.c", "flash.c"), "small sectors whose card forgets")
    if missing := lacks(CHIP):
        room.checks.skip("a card on a flash of qemu that forgets", f"{missing} isn't installed")
        return
    port = room_of_port(room, "forgets")
    out, _ = library(port, CHIP.name)
    program = made(port, CHIP.name, out, DRIVER, "card")
    first, second, third = VALUES
    card = Card(program, new_flash(room.folder / "forgetting.flash"), [], [first])
    for new, command in ((second, change(first, second)), (third, change(second, third)), (FOURTH, UNBLOCK)):
        room.checks.same(card.answer(command, None), DONE, f"PIN 2 gets {new}")
        card.had, card.may_be = [*card.had, new], [new]
        room.checks.same(card.left(), {new}, f"behind {new} no other value is in the flash")
    compare_kills(room, card)
