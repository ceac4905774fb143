"""What calls of the library take of the stack and of the heap, by space.c."""
from __future__ import annotations

import subprocess
from collections.abc import Iterator
from pathlib import Path
from typing import NamedTuple

from .calls import build
from .kinds import FACTORY, READ, VERIFY, card_of, create, delete, make_bytes, select, update
from .other_kinds import FULL_DF, MORE

SOURCE = Path(__file__).resolve().parent / "space.c"
# the heap's functions are counted, and no call looks for a function of the C library as it runs
LINKED = ["-pthread", "-Wl,-z,now", "-Wl,--wrap=malloc", "-Wl,--wrap=free"]
DONE = 0


class Unmade(Exception):
    """Why nothing is known of a call's space."""


class Taking(NamedTuple):
    """A call whose stack is painted: its name, the lines before it, its line, and the card."""

    name: str
    head: list[str]
    line: str
    pages: int = 1024
    has_device: bool = False


class Space(NamedTuple):
    """The bytes of the stack that a call used, and the most bytes of the heap until then."""

    stack: int
    heap: int


# a template of 27 objects: six of a file, and 21 that no file has
OBJECTS = create("82024121", "83026F01", "8800", "8002000A", "8A0105", "8C0443000000", *["8100"] * 21)
TAKINGS = [
    Taking("power-on", [], "on"),
    Taking("power-on with 64 entries and 4,096 pages", card_of(64), "on", 4096),
    Taking("the same with a device", card_of(64), "on", 4096, True),
    Taking("SELECT", ["on"], select(FACTORY)),
    Taking("READ BINARY of 10 bytes", ["on", select(FACTORY)], READ),
    Taking("UPDATE BINARY of 255 bytes", MORE, update(255)),
    Taking("CREATE FILE", ["on"], make_bytes("6F01", 10)),
    Taking("CREATE FILE with 27 objects (6A80)", ["on"], OBJECTS),
    Taking("DELETE FILE of a DF with 60 files", FULL_DF, delete("7F10")),
    Taking("VERIFY with a device", ["on"], VERIFY, has_device=True),
]


def build_space(library: str) -> str:
    """The path of the program that paints stacks."""
    return build(library, SOURCE, *LINKED)


def space(program: str, taking: Taking) -> Space:
    """What a call takes."""
    words = [program, str(taking.pages), *(["device"] if taking.has_device else [])]
    script = "".join(f"{line}\n" for line in [*taking.head, taking.line])
    ran = subprocess.run(words, input=script, stdout=subprocess.PIPE, text=True)
    numbers = [int(it) for it in ran.stdout.split()]
    if ran.returncode or len(numbers) != 3 or numbers[0] != DONE:
        raise Unmade(f"{taking.name}: status {ran.returncode}, {ran.stdout.strip() or 'nothing'} was printed")
    return Space(*numbers[1:])


def names(call: str) -> tuple[str, str]:
    """The names of what a call takes of the stack and of the heap, among the stored numbers."""
    return f"stack: {call}", f"heap: {call}"


def numbers(found: dict[str, Space]) -> Iterator[tuple[str, int]]:
    """The numbers of calls, by their names."""
    for call, it in found.items():
        yield from zip(names(call), it)
