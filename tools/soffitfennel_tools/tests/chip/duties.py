"""The program that tries a device's duties: it passes the example's device, and names what a broken one breaks."""
from __future__ import annotations

import os
import select
import subprocess
import time
from collections.abc import Sequence
from concurrent.futures import ThreadPoolExecutor
from pathlib import Path

from ...chips.targets import TARGETS
from ...porting.writing import EXAMPLE
from .building import WARNINGS, Failed, Room, lacks, run
from .playing import QUIET

CHIP = TARGETS["riscv32"]
MEMORY = "16M"
# where the words of the device lie in the board's memory, and one of them that is changed
WORDS_AT, CHANGED = 0x200000, 5000 * 4
# seconds that a program may take, on a machine that other programs use too
PATIENCE = 300.0
LOST = "if (!has_power)\n        return DEVICE_LOST;\n    "
STORE, PUT = "for (size_t i = 0; i < (size_t)count", "words[(size_t)page * PAGE_WORDS"
BIT = "device_compare: a difference of one bit is one"
# what is changed in the example's device, and the duty that is then broken
BROKEN = (
    ("return PAGES;", "return 100;", "device_pages: 1024 to 4096 pages"),
    ("return PAGES;", "static int more; return (uint16_t)(PAGES - (more++ > 9));", "device_pages: always the same"),
    ("*word = words[at];", "*word = words[at ^ 1];", "device_read: each word"),
    ("*word = words[at];", "*word = words[at & 0xFFF];", "device_read: each word"),
    ("*word = words[at];", "*word = words[at]; words[at] ^= at == 77;", "device_read: a read changes no word"),
    ("PAGE_WORDS + first + i] = from[i]", "PAGE_WORDS + i] = from[i]", "1 to 16 words from any word"),
    (STORE, "for (size_t i = 0; i + 1 < (size_t)count", "1 to 16 words from any word"),
    ("] = from[i];", "] &= from[i];", "each bit goes up and down"),
    (STORE, "words[(page + 1) % PAGES * PAGE_WORDS] = 0;\n    " + STORE, "the words of other pages stay"),
    ("from[i];\n    return", f"from[i];\n    {PUT}] = 0;\n    return", "the other words of the page stay"),
    (STORE, "if (page == 9)\n        return DEVICE_LOST;\n    " + STORE, "done while there is power"),
    ("i < SECRET_BYTES", "i < SECRET_BYTES - 1", BIT),
    ("differs |= kept[i] ^ shown[i]", "differs |= (kept[i] ^ shown[i]) & 0x7F", BIT),
    ("*equal = differs == 0", "*equal = differs != 0", "equal bytes are equal"),
    ("*equal = differs == 0", "*equal = true", BIT),
    ("*equal = differs == 0;", "*equal = differs == 0; words[99]++;", "device_compare: no word changes"),
    ("has_power = true;\n    return true", "has_power = true;\n    return false", "device_light: true"),
    ("has_power = true;", "has_power = true; words[3] = 0;", "device_light: words stay"),
    ("has_power = false;", "has_power = false; words[9] = 0;", "device_power_off: words stay"),
    ("has_power = false;", "", "device_read: DEVICE_LOST while power is off"),
    (LOST + STORE, STORE, "device_write: DEVICE_LOST while power is off"),
    (LOST + "for (size_t i = 0; i < SECRET", "for (size_t i = 0; i < SECRET", "device_compare: DEVICE_LOST while"),
)


def by_host(room: Room, device: Path, *words: str) -> str:
    """What the program prints on this machine, with a device."""
    made, parts = room.folder / f"{device.stem}.duties", [EXAMPLE / it for it in ("duties.c", "board_host.c")]
    run("cc", *words, "-O1", f"-I{EXAMPLE}", *parts, device, "-o", made)
    return subprocess.run([made], capture_output=True, text=True, check=False).stdout


def by_broken(room: Room, number: int) -> str:
    """What the program prints with a broken device."""
    source = (EXAMPLE / "device.c").read_text(encoding="utf-8")
    old, new, _ = BROKEN[number]
    if old not in source:
        raise Failed(f"examples/chip/device.c has no longer: {old}")
    device = room.folder / f"broken{number}.c"
    device.write_text(source.replace(old, new, 1), encoding="utf-8")
    return by_host(room, device, "-w")


def compare(room: Room) -> None:
    """Tries the example's device, and each broken one."""
    checked = ("-fsanitize=address,undefined", "-fno-sanitize-recover=all")
    text = by_host(room, EXAMPLE / "device.c", *WARNINGS, *checked)
    room.checks.check(text.endswith(" passed, 0 failed\n"), "the example's device keeps its duties", text)
    with ThreadPoolExecutor(os.cpu_count()) as pool:
        for (old, new, duty), text in zip(BROKEN, pool.map(lambda it: by_broken(room, it), range(len(BROKEN)))):
            is_named = any(it.startswith("broken: ") and duty in it for it in text.splitlines())
            room.checks.check(is_named, f"a device is broken: {new or 'no ' + old}", text)


def printed(emulator: Sequence[str]) -> str:
    """What the program prints on an emulated board, up to its last line. The board's port is the emulator's standard
    output: a pseudo-terminal loses what is printed before it has a reader."""
    text, end, pipe = b"", time.monotonic() + PATIENCE, subprocess.PIPE
    with subprocess.Popen([*emulator, *QUIET, "-serial", "stdio"], stdin=pipe, stdout=pipe) as process:
        assert process.stdout
        try:
            while not text.endswith((b"failed\r\n", b"failed\n")) and time.monotonic() < end:
                if select.select([process.stdout], [], [], 1)[0]:
                    if not (part := os.read(process.stdout.fileno(), 4096)):
                        break
                    text += part
        finally:
            process.kill()
    return text.decode("ascii", "replace").replace("\r", "")


def compare_reset(room: Room) -> None:
    """On a board whose memory survives, the second run finds what the first one wrote, or says that it isn't there."""
    if missing := lacks(CHIP):
        room.checks.skip("duties behind a reset", f"{missing} isn't installed")
        return
    out, memory = room.folder / "duties-chip", room.folder / "duties.memory"
    out.mkdir()
    run("make", "-s", "-C", EXAMPLE, f"CHIP={CHIP.name}", f"LIBRARY={out}", "duties")
    runs = (("the first run", "no run before"), ("behind a reset", ""), ("a lost word", "words stay without power"))
    for what, wanted in runs:
        if what == "a lost word":
            with memory.open("r+b") as file:
                file.seek(WORDS_AT + CHANGED)
                file.write(b"\0\0\0\0")
        text = printed([*CHIP.emulator, *kept(memory), "-kernel", str(out / "duties.elf")])
        is_so = wanted in text and (what == "a lost word" or text.endswith(" 0 failed\n"))
        room.checks.check(is_so and ("no run before" in text) == (what == "the first run"), f"duties: {what}", text)


def kept(memory: Path) -> list[str]:
    """The words for a board whose memory is a file."""
    memory.touch(0o600)
    backend = f"memory-backend-file,id=ram,size={MEMORY},share=on,mem-path={memory}"
    return ["-m", MEMORY, "-object", backend, "-machine", "memory-backend=ram"]

