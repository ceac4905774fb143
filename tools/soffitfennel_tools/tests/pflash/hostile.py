"""Hostile blocks and messages to a card on a flash of qemu: it answers as the bench does, and goes on."""
from __future__ import annotations

import os
import random
import threading
from concurrent.futures import ThreadPoolExecutor
from pathlib import Path

from ..chip.building import lacks
from ..chip.kills import DONE, READ, RIGHT, SELECT, WRONG_2, update
from ..chip.playing import Script, serial
from .building import CHIP, DRIVER, Room, library, made
from .emulating import emulator, new_flash, port_of
from .scripts import by_bench

SEED, SCRIPTS, ROUNDS, ROUND = 20_261_130, 4, 12, 20
# the longest block that the bench takes, and sizes of messages that are no block of a card (examples/chip/messages.h)
MOST, SIZES = 300, (0, 301, 5000, 0xFFFF)
MUTE, SIZE, UNKNOWN_ORDERS = 1, 4, (9, 0xFF)
# blocks that are sent before any reply is read
FLOOD = 300
# requests and answers to resynchronize, of a field size, to abort and for time (ISO/IEC 7816-3, 11.3.2.2)
SUPERVISORY = (0xC0, 0xC1, 0xC1, 0xC2, 0xC3, 0xE0, 0xE1, 0xE2, 0xE3, 0xFF)
BYTES = [bytes.fromhex(it.partition(" ")[2]) for it in (SELECT, READ, RIGHT, WRONG_2, update(SEED))]


def good_block(chance: random.Random) -> bytes:
    """A block with its check byte: of a command or a part of one, an R-block, or an S-block with any field."""
    kind = chance.randrange(8)
    if kind < 4:
        return bytes(serial.framed(chance.choice((0, 0x40)), chance.choice(BYTES)))
    if kind < 6:
        return bytes(serial.framed(chance.choice((0x20, 0x60)), chance.randbytes(chance.choice((0, 1, 32, 254)))))
    if kind == 6:
        return bytes(serial.framed(0x80 | chance.randrange(0x40)))
    return bytes(serial.framed(chance.choice(SUPERVISORY), chance.randbytes(chance.choice((0, 1, 1, 2, 254)))))


def hostile_block(chance: random.Random) -> bytes:
    """A block of which something is wrong, and now and then a good one."""
    block, kind = good_block(chance), chance.randrange(7)
    if kind == 0:
        return block
    if kind == 1:
        return block[:-1] + bytes([block[-1] ^ 1 << chance.randrange(8)])
    if kind == 2:
        return block[: chance.randrange(1, len(block))]
    if kind == 3:
        return (block + chance.randbytes(MOST))[: chance.randrange(len(block), MOST) + 1]
    if kind == 4:
        return chance.randbytes(chance.randrange(1, MOST + 1))
    # (a wrong byte with a right check)
    place = chance.choice((0, 1, 2))
    other = block[:place] + chance.randbytes(1) + block[place + 1 : -1]
    return bytes([*other, serial.reduce(serial.xor, other)])


def hostile_script(seed: int) -> list[str]:
    """Blocks on a line, with a power-on now and then behind which the card is asked what it holds."""
    chance, lines = random.Random(seed), ["on"]
    for number in range(ROUNDS):
        lines += [f"block {hostile_block(chance).hex()}" for _ in range(ROUND)]
        lines += ["on", SELECT, READ, RIGHT, update(number), READ]
    return lines


def printed_by(program: Path, flash: Path, lines: list[str]) -> list[str]:
    """What a script prints on a card on a flash of qemu."""
    printed: list[str] = []
    with emulator(program, flash) as process:
        try:
            script = Script(serial.Port(port_of(process)))
            printed += [text for line in lines if (text := script.run(line)) is not None]
        except (serial.Stopped, OSError) as why:
            printed.append(f"stopped: {why}")
        finally:
            process.kill()
    return printed


def message(order: int, sent: bytes) -> bytes:
    """A message to the card."""
    return bytes([order]) + len(sent).to_bytes(2, "big") + sent


def send(port: serial.Port, data: bytes) -> None:
    """Sends bytes, however few of them the port takes at once."""
    while data:
        data = data[os.write(port.file, data) :]


def reply_of(port: serial.Port) -> tuple[int, bytes]:
    """The next outcome and its bytes, whatever they are."""
    outcome, *size = port.read(3)
    return outcome, port.read(int.from_bytes(bytes(size), "big"))


def asked(port: serial.Port, messages: list[bytes]) -> list[tuple[int, bytes]]:
    """The replies to messages that are sent without a wait."""
    sending = threading.Thread(target=send, args=(port, b"".join(messages)), daemon=True)
    sending.start()
    return [reply_of(port) for _ in messages]


def compare_messages(room: Room, port: serial.Port) -> None:
    """Messages that are no block, and a flood of blocks: each has its reply, and the card goes on."""
    script, chance = Script(port), random.Random(SEED)
    room.checks.same([script.run(it) for it in ("on", SELECT)][1:], [DONE], "a card before messages that are no block")
    for size in SIZES:
        came = asked(port, [message(serial.BLOCK, chance.randbytes(size))])
        room.checks.same(came, [(SIZE, b"")], f"a message of {size} bytes")
        room.checks.same(script.run(SELECT), DONE, f"a command behind a message of {size} bytes")
    for order in UNKNOWN_ORDERS:
        came = asked(port, [message(order, chance.randbytes(MOST))])
        room.checks.same(came, [(MUTE, b"")], f"a message of order {order}")
        room.checks.same([script.run(it) for it in ("on", SELECT)][1:], [DONE], f"a card behind order {order}")
    blocks = [hostile_block(chance) for _ in range(FLOOD)]
    wanted = by_bench(room, ["on", *(f"block {it.hex()}" for it in blocks)])[1:]
    script.run("on")
    replies = asked(port, [message(serial.BLOCK, it) for it in blocks])
    room.checks.same([f"< {it.hex().upper()}" for _, it in replies], wanted, f"{FLOOD} blocks without a wait")
    room.checks.same([script.run(it) for it in ("on", SELECT)][1:], [DONE], "a card behind them")


def compare_all_messages(room: Room, program: Path) -> None:
    """The same on a new card."""
    with emulator(program, new_flash(room.folder / "messages.flash")) as process:
        try:
            compare_messages(room, serial.Port(port_of(process)))
        except (serial.Stopped, OSError) as why:
            room.checks.check(False, "messages that are no block", f"stopped: {why}")
        finally:
            process.kill()


def compare(room: Room) -> None:
    """Scripts of hostile blocks, and messages that are none."""
    if missing := lacks(CHIP):
        room.checks.skip("hostile blocks to a card on a flash of qemu", f"{missing} isn't installed")
        return
    program = made(room, CHIP.name, library(room, CHIP.name)[0], DRIVER, "card")
    scripts = [hostile_script(SEED + it) for it in range(SCRIPTS)]
    flashes = [new_flash(room.folder / f"hostile-{it}.flash") for it in range(SCRIPTS)]
    with ThreadPoolExecutor(os.cpu_count()) as pool:
        ran = list(pool.map(printed_by, [program] * SCRIPTS, flashes, scripts))
    for at, (lines, printed) in enumerate(zip(scripts, ran)):
        room.checks.same(printed, by_bench(room, lines), f"hostile blocks {at}")
    compare_all_messages(room, program)
