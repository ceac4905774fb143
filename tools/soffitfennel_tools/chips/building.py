"""Builds the card of a port for a processor: libcard_device.a, its header, and the bound of its stack."""
from __future__ import annotations

import hashlib
import os
import re
import shutil
from dataclasses import dataclass
from pathlib import Path

from ..narrowing.building import OF_KIT, TOP, kit_folder, run
from ..narrowing.rewriting import ALLOCATOR, HEAP, Rewriting
from .interface import compare, imports, named
from .module import CARD, TEXTS
from .stack import Bound, read
from .targets import Target

LIBRARY = f"lib{CARD}.a"
HEADER = f"{CARD}.h"
# as small as it goes
WORDS = (
    "--no-default-config",
    "-ffunction-sections",
    "-fdata-sections",
    "-Wno-override-module",
    "-mllvm",
    "-inline-threshold=5",
    *OF_KIT,
)
SOURCE = "card.ll"
STARTS = ("card_serve", "card_serve_commands", "card_start", "card_block")
# what a port over a flash has too
ON_FLASH = ("card_make", "card_renew")


@dataclass(frozen=True)
class Built:
    """A library for a processor: its file, and the bound of each function that C calls."""

    library: Path
    bounds: dict[str, Bound]


def sources(port: Path) -> str:
    """A name for all that a module without a proof is made from."""
    tools = TOP / "tools" / "soffitfennel_tools"
    files = [tools / "chips/module.py", tools / "narrowing/building.py", *sorted((tools / "unproving").glob("*.py"))]
    files += [*sorted(port.glob("crates/*/src/**/*.rt")), port / "crates.txt", kit_folder() / "KIT-ID"]
    told = hashlib.sha256()
    for it in files:
        content = it.read_bytes() if it.is_file() else b""
        told.update(f"{it.name} {len(content)}\n".encode() + content)
    return told.hexdigest()[:32]


def text_of(port: Path, is_proved: bool, room: Path) -> str:
    """The module of a port. One without a proof is kept by its sources."""
    kept = TOP / "out" / "chip" / f"{sources(port)}.ll"
    if is_proved:
        return TEXTS[True](port, room)
    if not kept.is_file():
        made = room / "made.ll"
        made.write_text(TEXTS[False](port, room), encoding="utf-8")
        kept.parent.mkdir(parents=True, exist_ok=True)
        fresh = kept.with_name(f".{kept.name}.{os.getpid()}")
        shutil.copyfile(made, fresh)
        fresh.replace(kept)
    return kept.read_text(encoding="utf-8")


def rewritten(text: str, target: Target) -> str:
    """The module for a processor."""
    if target.architecture is None:
        return named(HEAP.sub("", text) + ALLOCATOR)
    made = Rewriting({it: it for it in imports(text)}, target.architecture).module(text)
    # (a jump by a table would look as a call by pointer to the bound of the stack)
    return named(re.sub(r"^(attributes #\d+ = \{)", r'\1 "no-jump-tables"="true"', made, flags=re.M))


def compiler(target: Target, room: Path, *words: object) -> None:
    """Compiles the module in a folder for a processor."""
    run(kit_folder() / "toolchain/bin/clang", *target.clang, *WORDS, "-x", "ir", room / SOURCE, "-Os", *words)


def compiled(text: str, target: Target, room: Path) -> Path:
    """The object of a module that is rewritten."""
    made = room / f"{CARD}.o"
    (room / SOURCE).write_text(text, encoding="utf-8")
    compiler(target, room, "-c", "-o", made)
    return made


def bounds(target: Target, room: Path) -> dict[str, Bound]:
    """The bounds of the stack of a module that is compiled, but for the processor of this machine."""
    if target.architecture is None:
        return {}
    assembly = room / "card.s"
    compiler(target, room, "-S", "-fstack-usage", "-o", assembly)
    defined = set(re.findall(r"^(card_\w+):", assembly.read_text(encoding="utf-8"), re.M))
    starts = [it for it in (*STARTS, *ON_FLASH) if it in defined or it == STARTS[0]]
    return {it: read(assembly, assembly.with_suffix(".su"), it) for it in starts}


def build(port: Path, target: Target, out: Path, is_proved: bool, room: Path) -> Built:
    """Puts the library and its header into a folder."""
    header = (port / "device" / HEADER).read_text(encoding="utf-8")
    text = text_of(port, is_proved, room)
    compare(header, text)
    made = compiled(rewritten(text, target), target, room)
    library = room / LIBRARY
    run(kit_folder() / "toolchain/bin/llvm-ar", "rcsD", library, made)
    out.mkdir(parents=True, exist_ok=True)
    for path in (library, port / "device" / HEADER):
        fresh = out / f".{path.name}.{os.getpid()}"
        shutil.copyfile(path, fresh)
        fresh.replace(out / path.name)
    return Built(out / LIBRARY, bounds(target, room))
