"""Mutants of the rewriting: each of its rules, changed, stops the build or makes a script differ.

A rule that a processor of 32 bits can't tell from its absence is tried on this one, with wild upper halves."""
from __future__ import annotations

import os
import re
from concurrent.futures import ThreadPoolExecutor
from dataclasses import dataclass, field
from pathlib import Path

from ...chips.interface import imports
from ...chips.targets import TARGETS, Target
from ...narrowing.rewriting import Refused, Rewriting
from ...unproving.kit import Strange
from .building import HOST, Failed, Room, lacks, linked, low_program, object_of
from .running import by_bench, one

CHIP = TARGETS["riscv32"]
# scripts that reach each part of the card
SCRIPTS = ("form_of_select.rows", "create.script", "records_ring.script", "pin_under_cuts.script", "delete_tree.script",
           "rules_and_names_of_new_files.rows")


@dataclass
class Mutant(Rewriting):
    """The rewriting with a change of what a rule writes."""

    rule: str = ""
    change: tuple[str, str] = ("", "")
    changed: int = field(default=0)

    def mutated(self, before: int, text: str) -> str:
        """What a rule wrote, changed where it is the mutant's rule."""
        if self.counts[self.rule] == before:
            return text
        made, count = re.subn(*self.change, text)
        self.changed += count
        return made

    def instruction(self, line: str) -> list[str]:
        """What stands for a line of a function."""
        before = self.counts[self.rule]
        return self.mutated(before, "\n".join(super().instruction(line))).split("\n")

    def constant(self, line: str) -> str:
        """What stands for a constant."""
        before = self.counts[self.rule]
        return self.mutated(before, super().constant(line))


NARROWED = r"(%wide\d+) = trunc i64 (.*) to i32"
# a rule, what is changed in its lines, and whether this processor has to try it
MUTANTS: dict[str, tuple[str, tuple[str, str], bool]] = {
    "a place for a pointer has 4 bytes": ("place_for_pointer", ("i64, align 8", "i32, align 4"), False),
    "a pointer is loaded with its upper half": ("load_pointer", (r"(inttoptr i64 %\w+ to)", r"\1  "), True),
    "a pointer is loaded from behind": ("load_pointer", (r"inttoptr i64 (%\w+)", r"inttoptr i64 0"), False),
    "a pointer is stored as null": ("store_pointer", (r"store i64 %\w+", "store i64 0"), False),
    "a pointer is stored with 2 bytes": ("store_pointer", (r"to i64\nstore i64", "to i16\nstore i16"), False),
    "a pair keeps its pointer": ("move_pair", (r"\{ i64, i64 \}", "{ ptr, i64 }"), False),
    "the other part of a pair": ("part_of_pair", (r", 1$", ", 0"), False),
    "an address is taken as on 64 bits": ("address_of", ("ptrtoint", "ptrtoaddr"), False),
    "an offset is another one": ("fixed_offset", (r"i32 8$", "i32 12"), False),
    "an offset has 8 bits": ("offset", (r"to i32\n(.*)i32", r"to i8\n\1i8"), False),
    "a copy is shorter": ("memory_call", (r"i32 (\d)\d, i1 false", r"i32 \1, i1 false"), False),
    "a length has 3 bits": ("memory_call", (NARROWED, r"\1.x = trunc i64 \2 to i3\n\1 = zext i3 \1.x to i32"), False),
    "a call passes a pair as it was": ("call", (r"\{ i64, i64 \}", "{ ptr, i64 }"), False),
    # (32 bytes, so that each second entry of a table is read from zeros, wherever the table lies)
    "a constant pointer takes 32 bytes": ("constant pointer", (r", i32( 0)? \}", r", i192\1 }"), False),
}


def mutant(room: Room, name: str) -> Mutant:
    """A mutant by its name."""
    rule, change, _ = MUTANTS[name]
    return Mutant({it: it for it in imports(room.text)}, CHIP.architecture or "", rule=rule, change=change)


def program_of(room: Room, name: str, work: Mutant, number: int) -> tuple[Target, Path]:
    """The card by a mutant."""
    if MUTANTS[name][2]:
        return HOST, low_program(room, work, f"mutant{number}")
    return CHIP, linked(room, CHIP, object_of(room, CHIP, work.module(room.text), f"mutant{number}"))


def noticed(room: Room, name: str, number: int, scripts: dict[str, list[str]]) -> str | None:
    """What notices a mutant, or None."""
    work = mutant(room, name)
    try:
        target, program = program_of(room, name, work, number)
    except (Failed, Refused, Strange) as why:
        return f"the build: {str(why).splitlines()[0]}" if work.changed else None
    for script, lines in scripts.items():
        (printed, _), _ = one(target, program, lines)
        if printed != by_bench(room, lines, f"mutant{number}")[0]:
            return script
    return None


def compare(room: Room, scripts: dict[str, list[str]]) -> None:
    """Tries each mutant."""
    if missing := lacks(CHIP):
        room.checks.skip("mutants of the rewriting", f"{missing} isn't installed")
        return
    few = {name: scripts[name] for name in SCRIPTS}
    with ThreadPoolExecutor(os.cpu_count()) as pool:
        tried = {name: pool.submit(noticed, room, name, at, few) for at, name in enumerate(MUTANTS)}
        for name, it in tried.items():
            what = it.result()
            room.checks.check(what is not None, f"a mutant of the rewriting is noticed: {name}")
            print(f"mutant: {name}: {what}", flush=True)
