"""The library in C programs: scripts, random calls, a kept card, kills, an attack on a PIN, want of memory."""
from __future__ import annotations

import os
import re
import shutil
import subprocess
from pathlib import Path

from .checks import EXAMPLES, HEADER, ICCID, PROGRAMS, SANITIZERS, TOP, Tests

FIRST = 0x98
MOST_WRITES = 64
SEEDS = 4
# writes of 100,000 random calls, at least
LEAST_WRITES = 20_000
UNTRACED = 77


def test_scripts(tests: Tests) -> None:
    """Rows and examples print what they print by the bench."""
    bench = tests.compile(EXAMPLES / "bench.c", "-O2")
    given: dict[str, object] = {"BENCH_PROGRAM": bench}
    tests.run("all examples by the library", TOP / "tools" / "dev" / "examples", env=given)
    rows = sorted((TOP / "rows").glob("*.rows"))
    tests.run("all rows by the library", TOP / "bench", "-q", "--test", "--strict", *rows, env=given)


def test_run(tests: Tests) -> None:
    """A whole script in one call prints what it prints line by line, and has the same exit status."""
    program, script = tests.compile(PROGRAMS / "whole.c", *SANITIZERS), tests.room / "whole.script"
    if not program.exists() or not (tests.room / "bench").exists():
        return
    for source in sorted([*(TOP / "rows").glob("*.rows"), *(TOP / "examples").glob("*.script")]):
        with source.open("rb") as lines:
            text = b"".join(it for it in lines if not it.startswith(b"="))
        script.write_bytes(text)
        wanted = subprocess.run([tests.room / "bench"], input=text, capture_output=True, check=False)
        came = subprocess.run([program, script], capture_output=True, check=False)
        is_same = (came.returncode, came.stdout) == (wanted.returncode, wanted.stdout)
        tests.holds(is_same, f"{source.name} in one call", f"status {came.returncode}\n{came.stdout.decode()}")


def test_example(tests: Tests) -> None:
    """The example at the head of the header reads the ICCID."""
    card = EXAMPLES / "card.c"
    tests.run("the example in C", tests.compile(card, "-O2", "-pedantic"), wanted=f"9000\n{ICCID}")
    shown = [it.removeprefix(" *").removeprefix("   ") for it in header_example()]
    text = "\n".join(shown).strip()
    tests.holds(text in card.read_text(encoding="ascii"), "the header's example is examples/c/card.c", text)


def test_random(tests: Tests) -> None:
    """Random calls, under both sanitizers, with thousands of device writes, some of them refused."""
    program, count = tests.compile(PROGRAMS / "random.c", *SANITIZERS), tests.sizes.calls // SEEDS
    made = refused = 0
    for seed in range(SEEDS):
        ran = tests.call(program, count, seed)
        found = re.fullmatch(rf"random: {count} calls, (\d+) writes, (\d+) refused\n", ran.stdout)
        if tests.holds(bool(found), f"random calls, seed {seed}", ran.stdout + ran.stderr) and found:
            made, refused = made + int(found[1]), refused + int(found[2])
    is_enough = made >= LEAST_WRITES * tests.sizes.calls // 100_000 and refused > 0
    tests.holds(is_enough, "random calls write", f"{made} writes, {refused} refused")


def test_kept(tests: Tests) -> None:
    """A program that is killed before a device write leaves the card as before its command, or as after it."""
    program = tests.compile(EXAMPLES / "kept.c", "-O2", "-D_GNU_SOURCE", PROGRAMS / "killing.c")
    image, torn = tests.room / "image", tests.room / "torn"
    tests.run("a card is made in a file", program, image, wanted=f"{FIRST} {FIRST + 1}\n")
    tests.holds(image.stat().st_mode & 0o777 == 0o600, "a card's file is its owner's", oct(image.stat().st_mode))
    kills = 0
    for write in range(1, MOST_WRITES):
        shutil.copyfile(image, torn)
        if tests.call(program, torn, env={"KILLED_WRITE": write}).returncode == 0:
            break
        kills += 1
        found = tests.call(program, torn).stdout
        wanted = [f"{number} {number + 1}\n" for number in (FIRST + 1, FIRST + 2)]
        tests.holds(found in wanted, f"a card that was killed before write {write}", found)
    tests.run("a card that was not killed", program, torn, wanted=f"{FIRST + 2} {FIRST + 3}\n")
    tests.holds(kills > 4, "a session has more than four writes", str(kills))


def test_kept_mistakes(tests: Tests) -> None:
    """The program that users copy says what is wrong with a file, and leaves it as it is."""
    program, room = tests.compile(EXAMPLES / "kept.c", "-O2", "-D_GNU_SOURCE"), tests.room / "mistakes"
    room.mkdir()
    for name, size, why in (("empty", 0, "SIZE"), ("short", 1000, "SIZE"), ("odd", 65_535, "its size is no memory's"),
                            ("blank", 65_536, "NO_CARD"), ("large", 262_145, "its size is no memory's")):
        (room / name).write_bytes(bytes(size))
        tests.refuses(f"a file that is {name}", why, program, room / name)
        tests.holds((room / name).read_bytes() == bytes(size), f"a file that is {name} stays")
    (room / "link").symlink_to(room / "none")
    tests.refuses("a symbolic link", "it is a symbolic link", program, room / "link")
    os.mkfifo(room / "pipe")
    tests.refuses("a pipe", "it is no regular file", program, room / "pipe")
    tests.refuses("a folder that is not there", "No such file", program, room / "none" / "card")
    words = ["bash", "-c", 'ulimit -f 32; trap "" XFSZ; exec "$0" "$1"']
    tests.refuses("a file that may not grow", "", *words, program, room / "half")
    tests.run("a card is made in a file", program, room / "card")
    card = room / "card"
    for lock in ("-x", "-s"):
        tests.refuses(f"a file with a lock {lock}", "another program uses it", "flock", lock, card, program, card)
    tests.call("bash", "-c", 'exec "$0" "$1" >&-', program, card)
    tests.run("a card goes on behind a run without an output", program, card)
    left = sorted(it.name for it in room.iterdir())
    wanted = ["blank", "card", "empty", "large", "link", "odd", "pipe", "short"]
    tests.holds(left == wanted, "files that are left", str(left))


def test_kills(tests: Tests) -> None:
    """A program with a card in a file is killed at random moments: nothing is lost, and no try is back."""
    program, kills = tests.compile(PROGRAMS / "kill.c", "-O2", "-D_GNU_SOURCE"), tests.sizes.kills
    ran = tests.call(program, tests.room / "killed", kills, 1)
    is_so = re.fullmatch(rf"kill: {kills} kills, [1-9]\d* in a command that writes, \d+ updates\n", ran.stdout)
    tests.holds(bool(is_so), "kills of a C program", ran.stdout + ran.stderr)


def test_charges(tests: Tests) -> None:
    """No PIN command looks at a secret before its charge is stored, nor branches on a byte of one."""
    if not shutil.which("valgrind") or not Path("/usr/include/valgrind/memcheck.h").exists():
        tests.skip("the charges under valgrind", "valgrind isn't installed")
        return
    program, log = tests.compile(PROGRAMS / "charges.c", "-O2", "-g"), tests.room / "valgrind.log"
    words = ["valgrind", "-q", "--error-limit=no", f"--log-file={log}"]
    tests.run("charges are stored before secrets are looked at", *words, program, wanted="charges: 36 commands\n")


def test_uncharged(tests: Tests) -> None:
    """The proved code itself runs no command on PINs whose first write it hasn't handed out."""
    program = tests.compile(PROGRAMS / "uncharged.c", *SANITIZERS)
    tests.run("a command on PINs without a charge is refused", program)


def test_steps(tests: Tests) -> None:
    """A right value and wrong ones run the same instructions up to the first store."""
    program = tests.compile(PROGRAMS / "steps.c", "-O2")
    ran = tests.call(program)
    if ran.returncode == UNTRACED:
        tests.skip("single steps", "the system lets no program be traced")
        return
    tests.holds(ran.returncode == 0, "single steps", ran.stdout + ran.stderr)


def test_memory(tests: Tests) -> None:
    """The heap wipes what it frees, the device stores all bytes, and a call without memory changes nothing."""
    words = ["-O2", "-D_GNU_SOURCE", "-Wl,--wrap=malloc,--wrap=free,--wrap=pwrite"]
    program = tests.compile(PROGRAMS / "memory.c", *words)
    tests.run("the heap, the device, and want of memory", program)


def header_example() -> list[str]:
    """The lines of the example at the head of the header."""
    lines = HEADER.read_text(encoding="ascii").splitlines()
    begin = next(at for at, line in enumerate(lines) if "#include" in line)
    end = next(at for at, line in enumerate(lines) if line.startswith(" * A card is one pointer"))
    return lines[begin:end]


ALL = (test_scripts, test_run, test_example, test_random, test_kept, test_kept_mistakes, test_kills, test_charges,
       test_uncharged, test_steps, test_memory)
