"""The module for WebAssembly: that of LLVM which the toolchain compiles the library from, rewritten and linked."""
from __future__ import annotations

import os
import re
import shutil
import subprocess
import sys
import tempfile
from pathlib import Path

from ..commands import command
from ..unproving.kit import Failed, Kit, Strange, link_all, write_program
from ..unproving.library import as_library, as_program, empty

from .rewriting import Rewriting

TOP = Path(__file__).resolve().parent.parent.parent.parent
CRATE = TOP / "crates" / "soffitfennel"
ARCHIVE = CRATE / "out" / f"lib{CRATE.name}.a"
HEAP = Path(__file__).resolve().parent / "heap.c"
# the calls that store device writes; size_t has 64 bits there, as the proved code's usize
WRITES = TOP / "library" / "writes.c"
OF_WRITES = (f"-I{TOP / 'include'}", f"-I{HEAP.parent / 'include'}")
# what the page sees of it
WRITTEN = tuple(f"soffitfennel_{it}" for it in ("power_on", "command", "block"))
TARGET = "wasm32-unknown-unknown"
WORDS = (
    f"--target={TARGET}",
    "--no-default-config",
    "-mbulk-memory",
    "-msimd128",
    "-Wno-override-module",
    "-ffunction-sections",
)
# as the toolchain compiles for a processor
OF_KIT = (
    "-mllvm",
    "-trap-unreachable",
    "-mllvm",
    "-no-trap-after-noreturn",
    "-mllvm",
    "-disable-machine-licm",
    "-mllvm",
    "-disable-postra-machine-licm",
    "-mllvm",
    "-sink-common-insts=false",
)
STACK_BYTES = 256 << 10
# in the place of the compiler: it keeps the module that it is given, and compiles it
KEEPER = """#!/bin/sh
for word; do
  case $word in *.bc) cp "$word" "{kept}" || exit 1 ;; esac
done
exec "{compiler}" "$@"
"""


def unproved_text(room: Path) -> str:
    """The module of the library without a proof."""
    kit, modules = Kit(room), command("bench/unproved").modules
    text, proved = modules(kit, as_program(CRATE, kit.room), empty(CRATE, kit.room))
    return as_library(text, proved, CRATE)


def proved_text(room: Path) -> str:
    """The module of the library as it is proved, by tools/library with a compiler that keeps the module."""
    kit = kit_folder()
    kept, copy, compiler = room / "proved.bc", room / "kit", kit / "toolchain/bin/clang"
    link_all(kit, copy, {"bin", "toolchain"})
    link_all(kit / "toolchain", copy / "toolchain", {"bin"})
    link_all(kit / "toolchain/bin", copy / "toolchain/bin", {"clang"})
    link_all(kit / "bin", copy / "bin", {"rt", "rtlib.py"})
    for name in ("rt", "rtlib.py"):
        shutil.copy(kit / "bin" / name, copy / "bin" / name)
    write_program(copy / "toolchain/bin/clang", KEEPER.format(kept=kept, compiler=compiler))
    prove_library(room, copy / "bin")
    if not kept.is_file():
        raise Strange("it proved the library and compiled no module")
    text = room / "proved.ll"
    of_module = ["-x", "ir", kept, "-S", "-emit-llvm", "-O0", "-Xclang", "-disable-llvm-passes", "-o", text]
    run(compiler, "--target=x86_64-unknown-linux-gnu", "--no-default-config", *of_module)
    return text.read_text(encoding="utf-8")


def prove_library(room: Path, programs: Path) -> None:
    """Proves the library by the programs of a folder. With --target it is always proved anew, and its archive is moved
    away: the one that was there comes back."""
    words = [str(TOP / "tools/library"), "--target", "x86_64-unknown-linux-gnu", str(room / "library")]
    environment = {key: it for key, it in os.environ.items() if key != "SOFFITFENNEL_ARCHIVE"}
    environment["PATH"] = f"{programs}:{os.environ['PATH']}"
    kept = room / ARCHIVE.name
    if ARCHIVE.is_file():
        shutil.copy2(ARCHIVE, kept)
    try:
        if subprocess.run(words, env=environment, stdout=sys.stderr, check=False).returncode:
            raise Failed("the library wasn't proved and built")
    finally:
        if kept.is_file():
            shutil.copy2(kept, ARCHIVE)


def kit_folder() -> Path:
    """The folder of the toolchain."""
    rt = shutil.which("rt")
    if not rt:
        raise Strange("the toolchain's command rt is not on the path; --module takes a module that was made elsewhere")
    return Path(rt).resolve().parent.parent


def run(*words: object) -> None:
    """Runs a command that must pass."""
    command = [str(it) for it in words]
    ran = subprocess.run(command, stdout=subprocess.PIPE, stderr=subprocess.STDOUT, text=True, check=False)
    if ran.returncode:
        raise Strange(f"{Path(command[0]).name} ended with status {ran.returncode}:\n{ran.stdout}")


def exports(text: str) -> list[str]:
    """The functions that the page sees."""
    return sorted(set(re.findall(r"^define (?:noundef )?(?:i32|void) @(soffitfennel_\w+)\(", text, re.M)))


def compiled(text: str, room: Path) -> bytes:
    """The module of WebAssembly of a module of LLVM for x86-64."""
    bin_, made, out = kit_folder() / "toolchain/bin", room / "card.o", room / "card.wasm"
    source, linker, heap, writes = (room / it for it in ("card.ll", "wasm-ld", "heap.o", "writes.o"))
    of_c = ["-O2", "-ffreestanding", "-Wall", "-Wextra", "-Werror"]
    source.write_text(Rewriting().module(text), encoding="utf-8")
    run(bin_ / "clang", *WORDS, *OF_KIT, "-x", "ir", source, "-c", "-Os", "-o", made)
    run(bin_ / "clang", *WORDS, *of_c, "-c", HEAP, "-o", heap)
    run(bin_ / "clang", *WORDS, *of_c, *OF_WRITES, "-c", WRITES, "-o", writes)
    linker.symlink_to(bin_ / "ld.lld")
    words = ["--no-entry", "--gc-sections", "--strip-all", "--stack-first", "-z", f"stack-size={STACK_BYTES}"]
    words += ["--export=__global_base", "--import-undefined", "-o", str(out)]
    run(linker, *words, *(f"--export={it}" for it in [*exports(text), *WRITTEN]), made, writes, heap)
    return out.read_bytes()


def build(is_proved: bool) -> bytes:
    """The module, out of a proof or without one."""
    with tempfile.TemporaryDirectory(prefix="page-") as name:
        room = Path(name)
        return compiled(proved_text(room) if is_proved else unproved_text(room), room)
