"""A card over a flash with spare sectors: it prints what the bench prints, goes on where sectors wear out, though it is
killed there, and reads on where all spares are used up."""
from __future__ import annotations

import os
import random
import subprocess
import threading
import time
from array import array
from collections.abc import Iterable
from concurrent.futures import ThreadPoolExecutor
from contextlib import closing
from dataclasses import dataclass
from pathlib import Path

from ...card_image.flash import LARGE, MARK_WORDS, Flash
from ...porting.slots import PAGES, SECTOR_WORDS, SLOTS, SPARE_SECTORS, set_size
from ..chip.building import WARNINGS, lacks
from ..chip.kills import DONE, READ, RIGHT, SELECT, update
from ..chip.playing import Script, serial
from ..chip.units import PORT, tool
from .building import CHIP, HOST, PROGRAMS, SPARES, Room, by_host, library, made, room_of_port
from .emulating import BLANK, MARK, emulator, new_flash, port_of
from .kills import Known, Life, Told, life_ended
from .scripts import compare_host

# a flash whose worn sectors a test chooses, and the words of a sector of qemu's bank
DRIVER, DEVICE, WORDS = "worn_flash.c", "worn_flash.c bank_virt.c", 0x10000
# programs that print the sizes of a header, what the factory calls, and the words that are blank when the map is
SHOWN, OWN_MAP, BLANKED = "spare_sizes.c", "own_map.c", "blank_map.c"
# the sectors of the log, the words of an entry, and the sectors of the bank that have the map, and what is worn
OWN, ENTRY_WORDS = 3, 20
MAP_SECTOR = OWN + SPARES
WORN_SECTOR = MAP_SECTOR + 2
# updates within which one sector is erased again, and within which each is
SOME, ROUND = 100, 260
# the number of the first update behind these, and the steps of a move in turn 0 or 2; in turn 1 it has one more
LAST, STEPS = SOME + ROUND, 1 + 1024 // 16
FAILED, SEED = "< 6581", 20_261_129
# the longest life, that of a card that has to take a spare first, and the time that a switch takes, in seconds
LONG, LONG_ENOUGH, SWITCH = 5.0, 300.0, 0.6


def wear(flash: Path, *sectors: int) -> None:
    """Wears sectors out. No emulator has the file."""
    with flash.open("r+b") as file:
        file.seek(4 * WORDS * WORN_SECTOR)
        file.write(sum(1 << it for it in sectors).to_bytes(4, "little"))


@dataclass(frozen=True)
class Taken:
    """What the map of a flash says: where each sector of the log lies, the entries in use, and those that are torn."""

    places: list[int]
    used: int
    torn: int


def taken(flash: Path) -> Taken:
    """Reads the map by docs/FLASH.md: an entry counts with its exact mark alone, and the last one of a sector."""
    with flash.open("rb") as file:
        file.seek(4 * WORDS * MAP_SECTOR)
        words = array("I", file.read(4 * ENTRY_WORDS * SPARES))
    places, used, torn = list(range(OWN)), 0, 0
    for entry in range(SPARES):
        its = words[entry * ENTRY_WORDS : (entry + 1) * ENTRY_WORDS].tolist()
        is_whole, is_blank = its[18:] == MARK, set(its) == {BLANK}
        used, torn = used + (not is_blank), torn + (not is_blank and not is_whole)
        if is_whole and its[16] < OWN:
            places[its[16]] = OWN + entry
    return Taken(places, used, torn)


def log_of(flash: Path) -> Flash:
    """The words of the log, whose sectors lie where the map says."""
    words = array("I")
    with flash.open("rb") as file:
        for place, size in zip(taken(flash).places, (LARGE.area_words, LARGE.area_words, MARK_WORDS)):
            file.seek(4 * WORDS * place)
            words.frombytes(file.read(4 * size))
    return Flash(tuple(words))


def compare_port(room: Room) -> None:
    """tools/port writes such a port, with the numbers that were asked for."""
    port = room.folder / "spare-port"
    ran = tool(PORT, "--flash", "--spares", 5, "--pages", 1536, "--slots", 2048, "--sector-words", 104, port)
    room.checks.same((ran.returncode, ran.stdout), (0, f"{port}\n"), "tools/port --spares")
    for size, wanted in ((SPARE_SECTORS, ["5"]), (PAGES, ["1536"]), (SLOTS, ["2048"]), (SECTOR_WORDS, ["104"])):
        for place, number in size.places.items():
            found = number.findall((port / place).read_text(encoding="utf-8"))
            room.checks.same(found, wanted, f"the {size.what} in {place}")
    room.checks.same([str(it) for it in port.rglob("*.in")], [], "no template is left")
    room.checks.check((port / "device/spare_map.c").is_file(), "the port has the map's functions")
    shown = by_host([PROGRAMS / SHOWN], room.folder / "shown", f"-I{port / 'device'}")
    # (a sector has five slots: the 2,048 slots of an area and its mark take 410)
    words = 104 * (2 * 410 + 1 + 5)
    room.checks.same(shown, f"410 {words} 100 {words + 100}\n", "the sectors, words and map of the header")


def compare_factory(room: Room) -> None:
    """The factory makes a card where the map is blank. It leaves the flash to the card, wherever the map lies."""
    device = room.folder / "spare-port/device"
    printed = by_host([device / "factory.c", PROGRAMS / OWN_MAP], room.folder / "own-map", f"-I{device}")
    made_by = ["blank the map", "make a card of 1024 pages for 0", "note it"]
    room.checks.same(printed.splitlines(), [made_by[0], *made_by], "the factory over a map of its own")
    sources = [PROGRAMS / BLANKED, device / "spare_map.c", device / "flash.c"]
    printed = by_host(sources, room.folder / "blanked", f"-I{device}", *WARNINGS)
    room.checks.same(printed, "1 0 100\n", "the map is blank, and no other word")


def compare_driver(room: Room) -> None:
    """The driver of examples/flash, and the map's functions, refuse a map that its one sector hasn't room for."""
    port = room.folder / "spare-port"
    refused = {"pflash.c": "the map of spare sectors takes one sector"}
    refused["spare_map.c"] = "the map takes more than its sector"
    for words in (64, 99, 100):
        set_size(port, SECTOR_WORDS, words)
        for name, why in refused.items():
            compare_syntax(room, port / "device" / name, why if words < 100 else "", f"{name} over {words} words")


def compare_syntax(room: Room, source: Path, why: str, what: str) -> None:
    """A source of C is refused for a reason, or taken where none is given."""
    built: list[str | Path] = ["cc", *WARNINGS, "-fsyntax-only", source]
    ran = subprocess.run(built, capture_output=True, text=True, check=False)
    room.checks.check((ran.returncode == 0, why in ran.stderr) == (not why, True), what, ran.stderr)


def compare_most(room: Room) -> None:
    """The words of the largest flash, and those of its map, are numbers of the header."""
    port, spares, map_words = room.folder / "most-port", 32_755, 32_755 * ENTRY_WORDS
    ran = tool(PORT, "--flash", "--spares", spares, port)
    room.checks.same((ran.returncode, ran.stdout), (0, f"{port}\n"), f"tools/port --spares {spares}")
    shown = by_host([PROGRAMS / SHOWN], room.folder / "most", f"-I{port / 'device'}", *WARNINGS)
    words = (3 + spares) << 16
    room.checks.same(shown, f"1 {words} {map_words} {words + map_words}\n", "the words of the largest flash")


def compare_mistakes(room: Room) -> None:
    """What it refuses."""
    cases: tuple[tuple[list[object], str], ...] = (
        (["--spares", 2], "give --flash too"),
        (["--flash", "--spares", 0], "from 1 to 65535"),
        (["--flash", "--spares", 2, "--sector-words", 1_310_720], "at most 1,310,719 words"),
        (["--flash", "--spares", 65_533], "are too many"),
        (["--flash", "--spares", 65_533, "--sector-words", 64], "are too many"),
        (["--flash", "--spares", 40_000, "--sector-words", 131_072], "are too many"),
        (["--flash", "--spares", 40_000], "are too many"),
        (["--flash", "--spares", 32_756], "are too many"),
    )
    for words, why in cases:
        ran = tool(PORT, *words, room.folder / "new")
        lines = ran.stderr.splitlines()
        is_so = ran.returncode == 2 and len(lines) == 1 and why in lines[0]
        room.checks.check(is_so, f"tools/port {words}", ran.stderr)


def played(program: Path, flash: Path, lines: Iterable[str]) -> list[str]:
    """What a card answers, up to the first command that its device refuses."""
    printed: list[str] = []
    with emulator(program, flash) as process:
        try:
            script = Script(serial.Port(port_of(process)))
            for line in lines:
                printed.append(script.run(line) or "")
                if printed[-1] == FAILED:
                    break
        except (serial.Stopped, OSError) as why:
            printed.append(f"stopped: {why}")
        finally:
            process.kill()
    return printed


def updates(first: int, count: int) -> list[str]:
    """Updates of a file by numbers from one on."""
    return ["on", SELECT, RIGHT, *map(update, range(first, first + count))]


def compare_uses(room: Room, program: Path) -> None:
    """Worn sectors are replaced while a spare is free."""
    flash, read = new_flash(room.folder / "uses.flash"), ["on", SELECT, READ]
    played(program, flash, updates(0, SOME))
    room.checks.same(taken(flash), Taken([0, 1, 2], 0, 0), "no spare is taken for sound sectors")
    wear(flash, 0, 2, 4)
    ran = played(program, flash, updates(SOME, ROUND))
    room.checks.same(ran[1:], [DONE] * (ROUND + 2), "updates over worn sectors")
    found = taken(flash)
    is_so = found.places[1] == 1 and sorted(found.places) == [1, 3, 5] and found.used == 3
    room.checks.check(is_so, "each worn sector has a sound spare", f"{found}")
    room.checks.same(played(program, flash, read)[2:], [f"< {LAST - 1:08X}9000"], "the last update is there")
    wear(flash, *range(MAP_SECTOR))
    content = flash.read_bytes()
    for rolls_back in (False, True):
        compare_worn_out(room, program, new_flash(room.folder / f"worn-out-{rolls_back}.flash", content), rolls_back)


def compare_worn_out(room: Room, program: Path, flash: Path, rolls_back: bool) -> None:
    """Where no spare is left, no step of a move can erase its sector. Then writes go on as long as a slot is free
    beside those of the steps. Behind a power-on reads go on, unless the write that fails was one of a transaction whose
    pair counts: then the power-on fails, since it can't roll back.

    A write takes a slot. VERIFY makes two writes, and an update four: a pair, the gate, the word, the gate. So the pair
    counts where two or three of the four are made."""
    log = log_of(flash)
    left = log.areas[log.home].free - STEPS - (log.turn == 1)
    room.checks.check(left > 2 * 2, "a move is still to begin", f"{left}")
    counts = (left - 2) % 4 >= 2
    verified = 1 if counts == rolls_back else 2
    made_updates = (left - 2 * verified) // 4
    ran = played(program, flash, ["on", SELECT, *[RIGHT] * verified, *map(update, range(LAST, LAST + ROUND))])
    done = [DONE] * (1 + verified + made_updates)
    room.checks.same(ran[1:], [*done, FAILED], "writes fail where no spare and no slot is left")
    room.checks.same(taken(flash).used, SPARES, "all spares were tried")
    again = played(program, flash, ["on", SELECT, READ])
    if rolls_back:
        room.checks.same(again, ["mute"] * 3, "a power-on that can't roll back fails")
    else:
        told = f"< {LAST + made_updates - 1:08X}9000"
        room.checks.same(again[1:], [DONE, told], "reads go on where no spare is left")


def kill_behind(process: subprocess.Popen[str], flash: Path, seconds: float, chance: random.Random) -> None:
    """Kills a card after so many seconds, or soon behind the beginning of an entry of its map."""
    end, used = time.monotonic() + seconds, taken(flash).used
    while time.monotonic() < end and process.poll() is None:
        if taken(flash).used != used:
            end, used = time.monotonic() + chance.uniform(0, SWITCH), -1
            while time.monotonic() < end:
                time.sleep(0.01)
        time.sleep(0.01)
    process.kill()


def live_worn(program: Path, flash: Path, known: Known, told: Told, chance: random.Random) -> None:
    """A life of a card that is killed at a random moment, or where it takes a spare: the first one does, on a machine
    of any speed."""
    seconds, told.lives = chance.uniform(0, LONG) if told.lives else LONG_ENOUGH, told.lives + 1
    with emulator(program, flash) as process:
        killing = threading.Thread(target=kill_behind, args=(process, flash, seconds, chance))
        try:
            with closing(serial.Port(port_of(process))) as port:
                killing.start()
                life = Life(Script(port), known, told, chance)
                life.begin()
                while not told.wrong:
                    life.step()
        except (serial.Stopped, OSError):
            # (the port has closed: unless the kill has closed it, something is wrong)
            life_ended(process, told)
        finally:
            process.kill()
            # (an emulator without a port has no life to end)
            if killing.is_alive():
                killing.join()


def stream(program: Path, flash: Path, lives: int, seed: int) -> tuple[Told, Taken]:
    """A card that is killed so often while its sectors wear out, and then is asked once more."""
    chance, known, told = random.Random(seed), Known(), Told()
    worn: set[int] = set()
    while told.lives < lives and not told.wrong:
        found = taken(flash)
        if max(len(worn), found.used) < SPARES - 1:
            worn.add(chance.choice(found.places))
            wear(flash, *worn)
        live_worn(program, flash, known, told, chance)
    with emulator(program, flash) as process:
        try:
            if not told.wrong:
                Life(Script(serial.Port(port_of(process))), known, told, chance).begin()
        except (serial.Stopped, OSError) as why:
            told.wrong.append(f"behind the last kill: {why}")
        finally:
            process.kill()
    return told, taken(flash)


def compare_unstarted(room: Room) -> None:
    """A stream whose emulator ends before it has a port tells so, and comes to its end."""
    folder, path = room.folder / "unstarted", os.environ["PATH"]
    folder.mkdir()
    (folder / CHIP.emulator[0]).write_text("#!/bin/sh\nexit 1\n", encoding="utf-8")
    (folder / CHIP.emulator[0]).chmod(0o755)
    os.environ["PATH"] = f"{folder}:{path}"
    try:
        told, _ = stream(folder / "card.elf", new_flash(folder / "flash"), 2, SEED)
    finally:
        os.environ["PATH"] = path
    seen = (told.lives, told.answers, told.wrong)
    room.checks.same(seen, (2, 0, ["behind the last kill: the emulator has no port"]), "an emulator without a port")


def compare_kills(room: Room, program: Path, kills: int) -> None:
    """Kills cards side by side, a quarter as often as those over sound sectors."""
    kills = max(1, kills // 4)
    first, begun = new_flash(room.folder / "made.flash"), time.monotonic()
    room.checks.same(played(program, first, updates(0, 1))[1:], [DONE] * 3, "a card is made over spare sectors")
    content = first.read_bytes()
    streams = min(os.cpu_count() or 1, kills)
    shares = [kills // streams + (it < kills % streams) for it in range(streams)]
    with ThreadPoolExecutor(streams) as pool:
        ran = [
            pool.submit(stream, program, new_flash(room.folder / f"worn-{it}.flash", content), share, SEED + it)
            for it, share in enumerate(shares)
        ]
        tolds = [it.result() for it in ran]
    for at, (told, _) in enumerate(tolds):
        behind = f"card {at} over worn sectors behind {told.lives} kills"
        room.checks.check(not told.wrong, behind, "\n".join(told.wrong))
    used, torn = (sum(getattr(it, name) for _, it in tolds) for name in ("used", "torn"))
    answered, least = sum(told.answers for told, _ in tolds), min(found.used for _, found in tolds)
    room.checks.check(answered > 0 and least > 0, "each card takes a spare", f"{answered} answers, {used} spares")
    seen = f"{used} spares taken, {torn} entries torn, {answered} commands answered"
    print(f"{kills} kills over worn sectors, {seen}, {time.monotonic() - begun:.0f} s", flush=True)


def compare_writing(room: Room) -> None:
    """What tools/port writes, and what it refuses."""
    compare_port(room)
    compare_factory(room)
    compare_driver(room)
    compare_most(room)
    compare_mistakes(room)


def compare(room: Room, kills: int) -> None:
    """The stored scripts; and on qemu's flash, a card whose sectors wear out, and cards that are killed."""
    spares = room_of_port(room, "spares", (DRIVER,))
    compare_unstarted(spares)
    if missing := lacks(HOST):
        room.checks.skip("the card over a flash with spare sectors", f"{missing} isn't installed")
    else:
        compare_host(room, spares, ("flash.c", "flash.c"), "a flash with spare sectors")
    if missing := lacks(CHIP):
        room.checks.skip("worn sectors of a flash of qemu", f"{missing} isn't installed")
        return
    program = made(spares, CHIP.name, library(spares, CHIP.name)[0], DEVICE, "card")
    compare_uses(spares, program)
    compare_kills(spares, program, kills)
