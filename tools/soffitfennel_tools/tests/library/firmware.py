"""The firmware in the emulator: its answers, its memory that survives, its numbers on docs/LIBRARY.md."""
from __future__ import annotations

import os
import random
import re
import shutil
import signal
import subprocess
import time
from concurrent.futures import ThreadPoolExecutor
from contextlib import suppress
from pathlib import Path

from .checks import AARCH64, EXAMPLES, TOP, Tests, library_folder

SERIAL = TOP / "tools" / "serial"
PAGE = TOP / "docs" / "LIBRARY.md"
# the compiler whose code has the sizes on the page
COMPILER = "12.2.0"
SELECT = "apdu 00A4000C022FE2"
SESSION = f"on\n{SELECT}\napdu 002000010831323334FFFFFFFF\n"
LOOK = f"on\n{SELECT}\napdu 00B0000004\napdu 00200001\n"
UPDATES = 4000
# the first number, whose bytes differ
NUMBER = 0x01020304
# a right value, and wrong ones in the first and the last byte
VALUES = ("31323334FFFFFFFF", "39323334FFFFFFFF", "31323334FFFFFFFE")
TRACED = re.compile(rb"\[[0-9a-f]{16}/([0-9a-f]{16})/")
ONE_EACH = ["-accel", "tcg,one-insn-per-tb=on"]
# CREATE FILE of a transparent EF of 1 byte, by its last two digits, until the table of 64 entries is full
CREATED = "apdu 00E0000018621682024121830270{:02X}8800800200018A01058C03030000"
MOST_FILES = 62


def test_port(tests: Tests) -> None:
    """The reader's end of the firmware stops if its port closes."""
    board, port = os.openpty()
    words = [str(SERIAL), "--port", os.ttyname(port)]
    with subprocess.Popen(words, stdin=subprocess.PIPE, stderr=subprocess.DEVNULL) as reader:
        assert reader.stdin
        reader.stdin.write(b"on\n")
        reader.stdin.close()
        os.read(board, 3)
        os.close(board)
        os.close(port)
        tests.holds(reader.wait() == 2, "a port that closes", str(reader.returncode))


def test_firmware(tests: Tests) -> None:
    """The firmware answers as the library on this processor does, keeps its card, and takes what the page says."""
    for program in ("aarch64-linux-gnu-gcc", "qemu-system-aarch64"):
        if not shutil.which(program):
            tests.skip("the firmware", f"{program} isn't installed")
            return
    library = library_folder("SOFFITFENNEL_LIB_AARCH64", tests.room / "aarch64", AARCH64)
    if not tests.holds(library is not None, "the library for aarch64") or library is None:
        return
    image, largest = (link(tests, library, pages) for pages in (1024, 4096))
    compare_answers(tests, image)
    keep_card(tests, image)
    compare_steps(tests, image)
    compare_numbers(tests, image, largest)


def link(tests: Tests, library: Path, pages: int) -> Path:
    """The image with a card of so many pages."""
    image, source = tests.room / f"card{pages}.elf", tests.tree / "examples" / "firmware"
    tests.run("the firmware links", "make", "-s", "-C", source, f"LIBRARY={library}", f"PAGES={pages}")
    shutil.move(source / "card.elf", image)
    return image


def compare_answers(tests: Tests, image: Path) -> None:
    """Rows and examples without a cut."""
    if not (tests.room / "bench").exists():
        tests.compile(EXAMPLES / "bench.c", "-O2")
    scripts = [it for it in scripts_without_cuts() if wanted_of(tests, it) is not None]
    with ThreadPoolExecutor(os.cpu_count()) as pool:
        for script, came in zip(scripts, pool.map(lambda it: tests.call(SERIAL, "--image", image, it).stdout, scripts)):
            tests.holds(came == wanted_of(tests, script), f"{script.name} by the firmware", came)


def wanted_of(tests: Tests, script: Path) -> str | None:
    """What a script prints by the library of this processor, or None where it has a bad line."""
    with script.open("rb") as lines:
        text = b"".join(it for it in lines if not it.startswith(b"="))
    ran = subprocess.run([tests.room / "bench"], input=text, capture_output=True, check=False)
    return ran.stdout.decode() if ran.returncode == 0 else None


def scripts_without_cuts() -> list[Path]:
    """The rows and examples that cut no write."""
    scripts = sorted([*(TOP / "rows").glob("*.rows"), *(TOP / "examples").glob("*.script")])
    return [it for it in scripts if b"\ncut " not in it.read_bytes()]


def keep_card(tests: Tests, image: Path) -> None:
    """The emulator is killed while the card is updated: an answered update is there, and no try is back."""
    chance, memory, script = random.Random(7), tests.room / "board.memory", tests.room / "kept.script"
    serial, number, updates = [SERIAL, "--image", image, "--memory", memory], NUMBER, 0
    script.write_text(SESSION + updated(number), encoding="ascii")
    tests.run("a board keeps its card", *serial, script)
    for kill in range(tests.sizes.firmware_kills):
        script.write_text(SESSION + "".join(updated(number + it) for it in range(1, UPDATES)), encoding="ascii")
        answered = answered_until_kill([*map(str, serial), str(script)], chance.random() / 5)
        script.write_text(LOOK, encoding="ascii")
        lines = tests.call(*serial, script).stdout.splitlines()
        found = int(lines[2][2:10], 16) if len(lines) == 4 and re.fullmatch("< [0-9A-F]{8}9000", lines[2]) else -1
        is_so = found in (number + answered, number + answered + 1) and lines[3] in ("< 63C3", "< 63C2")
        tests.holds(is_so, f"kill {kill} of the board", f"{number} + {answered} updates answered, then {lines}")
        updates, number = updates + answered, max(found, 0)
    print(f"firmware: {tests.sizes.firmware_kills} kills, {updates} updates answered", flush=True)


def updated(number: int) -> str:
    """An update to a number."""
    return f"apdu 00D6000004{number:08X}\n"


def answered_until_kill(words: list[str], seconds: float) -> int:
    """How many updates were answered before the emulator was killed, so long behind the first one."""
    lines: list[str] = []
    with subprocess.Popen(words, stdout=subprocess.PIPE, stderr=subprocess.DEVNULL, text=True) as reader:
        assert reader.stdout
        while lines.count("< 9000\n") <= 2 and (line := reader.stdout.readline()):
            lines.append(line)
        time.sleep(seconds)
        for child in Path(f"/proc/{reader.pid}/task/{reader.pid}/children").read_text(encoding="ascii").split():
            # (the session may have come to its end)
            with suppress(ProcessLookupError):
                os.kill(int(child), signal.SIGKILL)
        lines += reader.stdout.readlines()
    return max(0, lines.count("< 9000\n") - 2)


def executed(tests: Tests, image: Path, value: str) -> list[int]:
    """The addresses of the instructions that the emulator runs from power-on on, with a VERIFY of this value."""
    script, log = tests.room / "traced.script", tests.room / "traced.log"
    script.write_text(f"on\napdu 0020000108{value}\n", encoding="ascii")
    words = ["qemu-system-aarch64", "-M", "virt", "-cpu", "cortex-a53", "-display", "none", "-monitor", "none"]
    words += ["-nic", "none", "-m", "16M", "-serial", "pty", "-d", "exec,nochain", "-D", str(log)]
    words += ["-kernel", str(image)]
    words += ["-singlestep"] if "-singlestep" in tests.call(words[0], "-help").stdout else ONE_EACH
    with subprocess.Popen(words, stdout=subprocess.PIPE, text=True) as board:
        assert board.stdout
        port = re.search(r"/dev/pts/\d+", board.stdout.readline())
        ran = tests.call(SERIAL, "--port", port[0] if port else "", script)
        board.kill()
    tests.holds(ran.returncode == 0 and len(ran.stdout.splitlines()) == 2, f"a traced VERIFY {value}", ran.stderr)
    return [int(it, 16) for it in TRACED.findall(log.read_bytes())]


def call_in(steps: list[int], place: int, store: int) -> tuple[list[int], list[int]]:
    """The instructions of the first call of a function that stores: up to the store, and from there to its end."""
    stored = steps.index(store)
    begin = stored - steps[stored::-1].index(place)
    end = steps.index(steps[begin - 1] + 4, stored)
    return steps[begin:stored], steps[stored:end]


def compare_steps(tests: Tests, image: Path) -> None:
    """A board's VERIFY runs the same instructions for every value until the charge is stored, and then the same for
    every wrong one. The comparison comes behind the store."""
    listed = tests.call("aarch64-linux-gnu-nm", image).stdout.splitlines()
    at = {it.split(" ", 2)[2]: int(it.split(" ", 1)[0], 16) for it in listed}
    compare = next(place for name, place in at.items() if "settling::compare" in name)
    block, store = at["soffitfennel_block"], at["soffitfennel_store"]
    ran = [executed(tests, image, it) for it in VALUES]
    # (a board without its card stores nothing, and has nothing to compare)
    if not tests.holds(all(store in it for it in ran), "each VERIFY stores a word", f"{[len(it) for it in ran]}"):
        return
    calls = [call_in(it, block, store) for it in ran]
    before, behind = zip(*calls)
    tests.holds(all(it == before[0] for it in before), "instructions before the store", str([len(it) for it in before]))
    tests.holds(not any(compare in it for it in before), "no comparison is before the store")
    tests.holds(all(compare in it for it in behind), "the comparison is behind the store")
    is_same = all(it == behind[1] for it in behind[1:])
    tests.holds(is_same, "instructions of wrong values", str([len(it) for it in behind]))


def use(tests: Tests, image: Path, script: Path) -> str:
    """The bytes of heap and stack in use behind a script."""
    return (tests.call(SERIAL, "--image", image, "--use", script).stdout.splitlines() or [""])[-1]


def compare_numbers(tests: Tests, image: Path, largest: Path) -> None:
    """The sizes of code, heap and stack, of the factory card and of the largest one with all its files."""
    version = tests.call("aarch64-linux-gnu-gcc", "-dumpfullversion").stdout.strip()
    if version != COMPILER:
        tests.skip("the firmware's numbers", f"the compiler is gcc {version}, the page's is {COMPILER}")
        return
    sections = re.findall(r"^\.(?:text|rodata|data) +(\d+)", tests.call("size", "-A", image).stdout, re.M)
    full = tests.room / "full.script"
    files = [CREATED.format(it) for it in range(MOST_FILES)]
    full.write_text("\n".join(["on", *files, "on", "free", ""]), encoding="ascii")
    came = tests.call(SERIAL, "--image", largest, full).stdout
    tests.holds(bool(re.search(r"^free \d+ 0$", came, re.M)), "the largest card with all its files", came)
    small = re.findall(r"\d+", use(tests, image, TOP / "examples" / "first.script"))
    great = re.findall(r"\d+", use(tests, largest, full))
    numbers = [sum(map(int, sections)), *map(int, small + great)]
    text = PAGE.read_text(encoding="utf-8")
    row = f"| {' | '.join(f'{it:,}' for it in numbers)} |"
    tests.holds(row in text, "the firmware's numbers on docs/LIBRARY.md", row)


ALL = (test_port, test_firmware)
