"""Sweeps a command of a card on a simulated flash (docs/SWEEP.md, On a flash): power is lost at each program and erase.

Each run is a bench script, and a process of its own."""
from __future__ import annotations

import argparse
import itertools
import os
import time
from bisect import bisect_left
from collections import Counter
from collections.abc import Callable, Iterator, Sequence
from contextlib import contextmanager
from dataclasses import dataclass
from functools import partial
from pathlib import Path
from shutil import rmtree
from tempfile import mkdtemp
from typing import Any, TypeVar

from .engine import Part, Refused, ran, with_depth
from .outcomes import Found
from .script import SweepScript
from ..card_image import layout
from ..card_image.flash import Kind, kind_of_size
from ..card_image.image import Image, Unreadable, image_of_flash, read_image, why_other_flash
from ..script_lines import ORDERS_THAT_PRINT

T = TypeVar("T")
R = TypeVar("R")
# how tasks are worked on: the results come in order
Spread = Callable[[Callable[[Any], Any], Sequence[Any]], list[Any]]
# the seed whose garbage is never what the whole operation leaves (docs/FLASH.md, On the bench)
DIFFERING = 0
MOST_SEED = 2**64 - 1
# the operations of a write, save where a move is due; and the most that a mask has a number for
USUAL, MOST_OPERATIONS = 2, 0x7FFF
# more writes than any command or power-on makes: one that makes a card of format 1 one of format 2 has 3,787 steps
MOST_WRITES = 4_000
# how often a folder is removed, in a second, while a run may be under way
TRIES = 100


@dataclass(frozen=True)
class Cut:
    """A power loss: at a device write, counted from 1, in an operation of it, counted from 0; without one behind it."""

    write: int
    operation: int | None = None

    @property
    def line(self) -> str:
        """The line of a script."""
        return f"cut {self.write} {'0001' if self.operation is None else f'{2 * self.operation:04X}'}"


@dataclass(frozen=True)
class Turn:
    """A command or a power-on: the lines before it, its line, and the flash that they begin with, or the factory's."""

    before: tuple[str, ...]
    line: str
    image: bytes | None


class FlashBench:
    """The bench with its card on a kind of flash, and a private folder for the flashes of runs."""

    def __init__(self, path: str, folder: Path, kind: Kind):
        self.path, self.folder, self.kind, self.names = path, folder, kind, itertools.count()

    def prints(self, seed: int, lines: Sequence[str], image: bytes | None) -> list[str]:
        """What a script prints on a flash with these words, or with the factory card."""
        if image is not None:
            return self.leaves(seed, lines, image)[0]
        return self.ran(seed, lines)

    def leaves(self, seed: int, lines: Sequence[str], image: bytes | None) -> tuple[list[str], bytes]:
        """What a script prints, and the words that it leaves on the flash."""
        path = self.folder / str(next(self.names))
        try:
            if image is not None:
                with open(path, "xb", opener=lambda name, flags: os.open(name, flags, 0o600)) as file:
                    file.write(image)
            return self.ran(seed, lines, "--card", str(path)), path.read_bytes()
        except OSError as error:
            raise Refused(f"the flash of a run: {error.strerror}") from error
        finally:
            path.unlink(missing_ok=True)

    def ran(self, seed: int, lines: Sequence[str], *words: str) -> list[str]:
        """The lines that the program prints."""
        script = "".join(f"{line}\n" for line in lines)
        return ran(script, self.path, *self.kind.options, str(seed), *words, has_parts=False)


class FlashSweep:
    """A sweep script on a flash, and what its runs find."""

    def __init__(self, bench: FlashBench, script: SweepScript, image: bytes | None):
        self.bench, self.script, self.image = bench, script, image
        self.looks = ["free", *script.probe]

    def run(self, seed: int, lines: Sequence[str]) -> tuple[list[str], Found]:
        """What these lines print, and what is found behind them: what the free space and the probe print."""
        printed = self.bench.prints(seed, [*lines, "on", *self.looks], self.image)
        many = sum(map(prints, self.looks))
        answers = iter(printed[-many:])
        # (a line that prints nothing stands for itself)
        found = tuple(next(answers) if prints(look) else look for look in self.looks)
        return printed[: -many - 1], found

    def stages(self) -> list[dict[str, Any]]:
        """The card before and after the command."""
        prepare, command = self.script.prepare, self.script.command
        _, before = self.run(DIFFERING, prepare)
        printed, after = self.run(DIFFERING, [*prepare, command])
        answer = printed[-1].removeprefix("< ")
        stages = {"before": ("", before), "after": (answer, after)}
        return [{"stage": name, "answer": answer, "found": found} for name, (answer, found) in stages.items()]

    def left(self, turn: Turn, cut: Cut) -> bytes | None:
        """The words on the flash behind a power loss in a turn; None if the turn makes no such write."""
        printed, words = self.bench.leaves(DIFFERING, [*turn.before, cut.line, turn.line], turn.image)
        return words if printed[-1] == "dark" else None

    def written(self, turn: Turn) -> Iterator[tuple[int, bytes]]:
        """Each device write of a turn by its number, and the words on the flash behind it."""
        for write in range(1, MOST_WRITES + 1):
            words = self.left(turn, Cut(write))
            if words is None:
                return
            yield write, words
        raise Refused(f"a command or a power-on has no end: it makes more than {MOST_WRITES} device writes")

    def operations(self, turn: Turn, made: tuple[int, bytes]) -> int:
        """How many programs and erases a device write has. A power loss in one never leaves what the whole write
        leaves, by the choice of the seed; one at a later number comes behind the write."""
        write, whole = made

        def is_behind(operation: int) -> bool:
            return self.left(turn, Cut(write, operation)) == whole

        most = USUAL
        while not is_behind(most):
            most *= 2
            if most > MOST_OPERATIONS:
                raise Refused("two runs of the command differ: a device write has no end")
        return bisect_left(range(most), True, key=is_behind)

    def found(self, cuts: Sequence[Cut], depth: int, seed: int) -> Counter[Found]:
        """What the runs behind these power losses find, with up to `depth` power-ons that lose power too. The first is
        in the command, and each other one in the next power-on."""
        lines = [*self.script.prepare, cuts[0].line, self.script.command]
        lines += [line for cut in cuts[1:] for line in (cut.line, "on")]
        found: Counter[Found] = Counter()
        if depth:
            turn = Turn((), "on", self.bench.leaves(seed, lines, self.image)[1])
            for made in self.written(turn):
                for cut in each_cut(made[0], self.operations(turn, made)):
                    found += self.found([*cuts, cut], depth - 1, seed)
        return found or Counter([self.found_once(lines, len(cuts), seed)])

    def found_once(self, lines: Sequence[str], cuts: int, seed: int) -> Found:
        """What a run finds behind lines that lose power so many times."""
        printed, found = self.run(seed, lines)
        if printed[sum(map(prints, self.script.prepare)) :] != ["dark"] * cuts:
            raise Refused("two runs of the command differ: a power loss of one is not in the other")
        return found

    def lines(self, seeds: range, spread: Spread) -> Iterator[dict[str, Any]]:
        """The lines of a report, as the program that sweeps prints them (docs/SWEEP.md, The program)."""
        prepare = tuple(self.script.prepare)
        yield from self.stages()
        turn = Turn(prepare, self.script.command, self.image)
        _, before = self.bench.leaves(DIFFERING, prepare, self.image)
        made = list(self.written(turn))
        counted = spread(partial(self.operations, turn), made)
        for (write, after), operations in zip(made, counted):
            yield {"write": write, "operations": operations, "kind": kind_of(before, after)}
            before = after
        cuts = [it for (write, _), operations in zip(made, counted) for it in each_cut(write, operations)]
        tasks = [(cut, seed) for cut in cuts for seed in seeds]
        results = spread(lambda it: self.found([it[0]], self.script.depth, it[1]), tasks)
        for number, ((cut, seed), found) in enumerate(zip(tasks, results)):
            mask = counted[cut.write - 1] if cut.operation is None else cut.operation
            for it, runs in found.items():
                yield {"write": cut.write, "number": number, "mask": mask, "seed": seed, "runs": runs, "found": it}
        yield {"writes": len(made), "depth": self.script.depth}


def prints(line: str) -> bool:
    """Whether a line of a script prints."""
    return line.split(" ")[0] in ORDERS_THAT_PRINT


def each_cut(write: int, operations: int) -> list[Cut]:
    """The power losses at a device write: at each of its operations, and behind it."""
    return [*(Cut(write, it) for it in range(operations)), Cut(write)]


def memory_of(words: bytes) -> Image:
    """The memory on a flash."""
    try:
        return image_of_flash("the flash of a run", words)
    except Unreadable as why:
        raise Refused(str(why)) from None


def kind_of(before: bytes, after: bytes) -> str:
    """The name of a device write, by the words that it changes (docs/SWEEP.md, The output)."""
    old, new = memory_of(before), memory_of(after)
    if old.gate != new.gate:
        return "gate" if new.gate else "commit"
    changed = [at for at, (was, now) in enumerate(zip(old.words, new.words)) if was != now]
    if not changed:
        return "same"
    if layout.JOURNAL <= changed[0] < layout.PAGE_WORDS * layout.BLOCK_PAGE:
        return "pairs"
    return "words" if old.gate else "alone" if len(changed) == 1 else "fill"


def seed(text: str) -> int:
    """A number of 64 bits."""
    if not (text.isascii() and text.isdigit() and int(text) <= MOST_SEED):
        raise argparse.ArgumentTypeError(f"a number from 0 to {MOST_SEED}")
    return int(text)


def image_in(path: str, kind: Kind) -> bytes:
    """The words on a flash of this kind in a file that no other program uses."""
    try:
        found, is_used = read_image(path)
    except Unreadable as why:
        raise Refused(str(why)) from None
    if is_used:
        raise Refused(f"{path} is in use by another program")
    why_not = why_other_flash(path, found, kind, "sweep")
    if why_not or not found.flash:
        raise Refused(why_not)
    return found.flash.data()


def refuse_flash(path: str) -> None:
    """Refuses a flash in a file where the memory of a card belongs. They differ in their size."""
    kind = kind_of_size(os.path.getsize(path)) if os.path.isfile(path) else None
    if kind:
        raise Refused(f"{path} has the size of {kind.name}: sweep it with {' '.join(['--flash SEED', *kind.options])}")


@contextmanager
def private_folder() -> Iterator[Path]:
    """A folder for this user alone, which goes at the end with what is in it."""
    try:
        room = Path(mkdtemp(prefix="sweep."))
    except OSError as error:
        raise Refused(f"no temporary folder can be made: {error.strerror}") from error
    try:
        yield room
    finally:
        # (a run that is under way may still make its file)
        for _ in range(TRIES):
            rmtree(room, ignore_errors=True)
            if not room.exists():
                break
            time.sleep(1 / TRIES)


def one_by_one(work: Callable[[T], R], tasks: Sequence[T]) -> list[R]:
    """The results of tasks."""
    return list(map(work, tasks))


def sweep_on_flash(
    bench: FlashBench, image: bytes | None, seeds: range, depth: int | None, script: str, spread: Spread = one_by_one
) -> Part:
    """The sweep of a script on a flash with these words, or with the factory card, as the only part that it has."""
    whole = with_depth(script, depth)
    lines = FlashSweep(bench, SweepScript(whole), image).lines(seeds, spread)
    return {"script": whole, "seeds": seeds, "kind": bench.kind, "lines": list(lines)}
