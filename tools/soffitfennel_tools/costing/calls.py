"""The instructions of a call of the library, by calls.c: each kind does what a kind of line does."""
from __future__ import annotations

import os
import re
import shutil
import subprocess
from collections.abc import Iterator
from pathlib import Path
from typing import NamedTuple

from .callgrind import Counts, count, each
from .kinds import SINGLE, Kind
from .page import is_near, number

TOP = Path(__file__).resolve().parents[3]
SOURCE = Path(__file__).resolve().parent / "calls.c"
C_WORDS = ["-O2", "-std=gnu11", f"-I{TOP / 'include'}"]
CALLED = ("`on`", "free", "SELECT", "READ BINARY of 10 bytes", "UPDATE BINARY of 10 bytes", "VERIFY, the right value")
HEAD = "| call that does | without a device | with a device |\n|---|---|---|"
ROW = re.compile(r"\| (.+) \| ([\d,]+) \| ([\d,]+) \|")


class Unbuilt(Exception):
    """Why there is no program that makes calls."""


class Call(NamedTuple):
    """A kind of call: the kind of line that it does, and whether the card has a device."""

    kind: Kind
    has_device: bool

    @property
    def name(self) -> str:
        """Its name among the stored counts."""
        return f"call: {self.kind.name}{', with a device' if self.has_device else ''}"


CALLS = [Call(kind, has_device) for kind in SINGLE if kind.name in CALLED for has_device in (False, True)]


def compiler() -> str | None:
    """The C compiler, if there is one."""
    return shutil.which(os.environ.get("CC") or "cc")


def build_library(room: str) -> str:
    """The path of the library, built into a folder."""
    if not compiler():
        raise Unbuilt("there is no C compiler, which the calls of the library need")
    library = f"{room}/library"
    ran = subprocess.run([f"{TOP}/tools/library", library], stdout=subprocess.DEVNULL)
    if ran.returncode:
        raise Unbuilt("the library is not built")
    return f"{library}/libsoffitfennel.a"


def build(library: str, source: Path, *words: str) -> str:
    """The path of a program in C, built over the library, beside it."""
    program = f"{os.path.dirname(library)}/{source.stem}"
    ran = subprocess.run([compiler() or "cc", *C_WORDS, str(source), library, *words, "-o", program])
    if ran.returncode:
        raise Unbuilt(f"the C compiler doesn't build {source.name}")
    return program


def call_cost(program: str, call: Call) -> Counts:
    """The instructions of a call."""
    kind, device = call.kind, ["device"] if call.has_device else []
    none, many = (count(program, kind.script(1), str(calls), *device) for calls in (0, kind.many))
    return each(none, many, kind.more)


def rows(counts: dict[str, Counts]) -> str:
    """The table of docs/COST.md."""
    lines = [HEAD]
    for kind in SINGLE:
        pair = [counts[it.name].all for it in CALLS if it.kind == kind and it.name in counts]
        if len(pair) == 2:
            lines.append(f"| {kind.name} | {pair[0]:,} | {pair[1]:,} |")
    return "\n".join(lines)


def page_faults(text: str, counts: dict[str, Counts]) -> Iterator[tuple[str, str | None]]:
    """Each counted call, and what is wrong with its number on the page, if anything."""
    found = {it[1]: it for it in map(ROW.fullmatch, text.splitlines()) if it}
    for call in CALLS:
        if call.name in counts:
            row, here = found.get(call.kind.name), counts[call.name].all
            yield call.name, fault(number(row[3 if call.has_device else 2]) if row else None, here)


def fault(page: int | None, here: int) -> str | None:
    """What is wrong with a number of the page, if anything."""
    if page is None:
        return f"no row, and {here:,} are counted"
    return None if is_near(page, here) else f"{page:,} on the page, and {here:,} are counted"
