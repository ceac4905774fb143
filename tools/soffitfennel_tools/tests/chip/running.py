"""Scripts on each processor: what they print is the bench's, and the words behind each line are the same."""
from __future__ import annotations

import os
import random
import subprocess
from collections.abc import Iterator
from concurrent.futures import ThreadPoolExecutor
from functools import reduce
from pathlib import Path

from ...chips.targets import Target
from ...comparing.random_commands import Commands
from ...comparing.sides import Program
from ...narrowing.building import TOP
from .building import BY_CALLS, HOST, Room
from .playing import play, serial, started

Programs = dict[str, tuple[Target, Path]]
Played = tuple[list[str], list[str]]
# the largest frame of C below a call of the card, and the C above it, in bytes
MOST_OF_C = 256
SEED = 20_261_128


def stored_scripts() -> Iterator[tuple[str, list[str]]]:
    """The scripts of the repository whose lines are all good, without those that ask for free space."""
    for path in sorted([*(TOP / "rows").glob("*.rows"), *(TOP / "examples").glob("*.script")]):
        if not path.name.startswith("bad_"):
            lines = serial.lines_of(str(path))
            yield path.name, [it for it in lines if it != "free"]


def random_script(room: Room, seed: int, lines: int) -> list[str]:
    """Random commands with sense, with cuts, lost and garbled blocks between them."""
    chance, bench = random.Random(seed), Program(room.bench, [])
    script = []
    try:
        for line in Commands(seed, True).script(lines, bench):
            if chance.random() < 0.1:
                cut = f"cut {chance.randrange(1, 9)} {chance.randrange(1 << 16):04X}"
                script.append(chance.choice([cut, "lose 1", "garble 2"]))
            script.append(line)
            if chance.random() < 0.05:
                script.append("on")
    finally:
        bench.close()
    return script


def by_bench(room: Room, lines: list[str], name: str) -> tuple[list[str], str]:
    """What a script prints by the bench, and the sum of the words that it leaves."""
    card = room.folder / f"{name}.card"
    card.write_bytes((room.folder / "factory.card").read_bytes())
    text = "".join(f"{it}\n" for it in lines)
    ran = subprocess.run([room.bench, "--card", card], input=text, capture_output=True, text=True, check=False)
    image = card.read_bytes()
    card.unlink()
    words = [int.from_bytes(image[at : at + 4], "big") for at in range(0, len(image), 4)]
    total = reduce(lambda it, word: (it ^ word) * 1099511628211 % (1 << 64), words, 14695981039346656037)
    return ran.stdout.splitlines(), total.to_bytes(8, "little").hex()


def one(target: Target, program: Path, lines: list[str]) -> tuple[Played, int]:
    """What a script prints on a new board, the sums behind its lines, and the bytes of stack in use."""
    with started(target, program) as port:
        printed, sums = play(port, lines)
        is_alive = len(sums) == len(lines)
        return (printed, sums), int.from_bytes(port.ask(serial.USE)[1][4:], "big") if is_alive else 0


def compare(room: Room, programs: Programs, scripts: dict[str, list[str]]) -> None:
    """Compares all scripts on all processors."""
    deepest = dict.fromkeys(programs, 0)
    with ThreadPoolExecutor(os.cpu_count()) as pool:
        wanted = {name: pool.submit(by_bench, room, lines, name) for name, lines in scripts.items()}
        ran = {
            (name, chip): pool.submit(one, target, program, lines)
            for name, lines in scripts.items()
            for chip, (target, program) in programs.items()
        }
        for (name, chip), it in ran.items():
            (printed, sums), stack = it.result()
            first = ran[name, HOST.name].result()[0][1]
            text, words = wanted[name].result()
            room.checks.same(printed, text, f"{name} on {chip}")
            room.checks.same(sums, first, f"the words behind each line of {name} on {chip}")
            room.checks.same(sums[-1:], [words] if sums else [], f"the image behind {name} on {chip} is the bench's")
            deepest[chip] = max(deepest[chip], stack)
    lines = sum(len(it) for it in scripts.values())
    print(f"{len(scripts)} scripts of {lines} lines on {', '.join(programs)}", flush=True)
    compare_stack(room, deepest)


def compare_stack(room: Room, deepest: dict[str, int]) -> None:
    """No run uses more stack than the bound, and what C takes."""
    for chip, stack in deepest.items():
        if bounds := room.bounds.get(chip.removesuffix(BY_CALLS)):
            called = ("card_start", "card_block") if chip.endswith(BY_CALLS) else ("card_serve",)
            most = max(bounds[it].size for it in called) + MOST_OF_C
            what = f"{chip} took {stack} bytes of stack, and the bound is {most}"
            room.checks.check(0 < stack <= most, what)
