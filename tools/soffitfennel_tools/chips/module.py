"""The module of LLVM of a port (tools/port): out of a proof, or without one."""
from __future__ import annotations

import os
import re
import shutil
import subprocess
import sys
from collections.abc import Callable, Iterator
from contextlib import contextmanager
from pathlib import Path

from ..commands import command
from ..narrowing.building import KEEPER, kit_folder, run
from ..unproving.kit import Failed, Kit, Strange, link_all, write_program
from ..unproving.library import PARAMETER, Export, as_library, exports

# the crate with C functions, over a board or over a flash, and the one with the functions that C calls
BOARD, FLASH, CARD = "device_board", "device_flash", "card_device"
TARGET = "x86_64-unknown-linux-gnu"
ALLOWED = "RT_ALLOW_C"
# what a proved library's functions for C need of the crates below it
EMPTY = """//! The functions that C sees. They do nothing.
#![tactic(auto)]
use std::alloc::Global;
/// A device.
#[derive(Drop)]
#[repr(C)]
pub struct Device {
    at: *mut u8,
}
/// The pointer behind which C keeps a card.
#[derive(Drop)]
#[repr(C)]
pub struct Handle {
    at: *mut u8,
}
"""
EMPTY_EXPORT = '#[unsafe(no_mangle)]\npub extern "C" fn {}({}) -> u32 {{\n    0\n}}\n'
# a program that calls each function that C sees; it has no device and no card, so that it needs nothing that the
# library doesn't
HANDLE = "src/handle.rt"
MAIN = """
fn no_device() -> Option<Device> {{
    None
}}

fn main(_rt: HostRuntime) {{
{calls}}}
"""
MAIN_WITH_CARD = """
fn no_device() -> Option<Device> {{
    None
}}

fn no_card() -> Option<crate::handle::Handle> {{
    None
}}

fn main(rt: HostRuntime) {{
    let Some(mut card) = no_card() else {{
        return;
    }};
{calls}    drop(card.into_session());
}}
"""
CALL = "    if let Some(device) = no_device() {{\n        {}({});\n    }}\n"
# what is passed for a parameter's type
ARGUMENTS = {
    "Global": "rt.alloc()", "&mut Handle": "&mut card", "Device": "device", "u32": "0u32", "&[u8]": "&[0u8; 4]",
    "&mut [u8]": "&mut [0u8; 4]", "&mut usize": "&mut 0usize",
}


def arguments(it: Export) -> str:
    """What a call of a function that C sees passes."""
    kinds = PARAMETER.findall(it.words)
    if it.result != " -> u32" or not set(kinds) <= set(ARGUMENTS):
        raise Strange(f"{it.name} has other parameters than these, or no u32: {', '.join(ARGUMENTS)}")
    return ", ".join(ARGUMENTS[kind] for kind in kinds)


def as_program(crate: Path, room: Path) -> Path:
    """A copy of the crates in which the library is a program."""
    top = room / "program"
    for part in ("src", "c"):
        for source in crate.parent.glob(f"*/{part}"):
            shutil.copytree(source, top / "crates" / source.parent.name / part)
    listed = (crate.parent.parent / "crates.txt").read_text(encoding="utf-8")
    (top / "crates.txt").write_text(listed.replace(f"{crate.name} staticlib:", f"{crate.name}:"), encoding="utf-8")
    library, program = (top / "crates" / crate.name / "src" / it for it in ("lib.rt", "main.rt"))
    calls = "".join(CALL.format(it.path, arguments(it)) for it in exports(crate))
    main = MAIN_WITH_CARD if (crate / HANDLE).is_file() else MAIN
    program.write_text(library.read_text(encoding="utf-8") + main.format(calls=calls), encoding="utf-8")
    library.unlink()
    return program.parent.parent


def empty(crate: Path, room: Path) -> Path:
    """A library with the same functions for C, which do nothing."""
    made = room / "empty" / "crates" / crate.name
    (made / "src").mkdir(parents=True)
    (room / "empty/crates.txt").write_text(f"{crate.name} staticlib:\n", encoding="utf-8")
    text = EMPTY
    for it in exports(crate):
        text += EMPTY_EXPORT.format(it.name, re.sub(r"(\w+): ", r"_\1: ", " ".join(it.words.split())))
    (made / "src/lib.rt").write_text(text, encoding="utf-8")
    return made


def with_c(port: Path) -> str:
    """The one crate of a port with functions of C."""
    return FLASH if (port / "crates" / FLASH).is_dir() else BOARD


@contextmanager
def allowing_c(crate: str) -> Iterator[None]:
    """Lets the toolchain take the one crate with functions of C."""
    before = os.environ.get(ALLOWED)
    os.environ[ALLOWED] = crate
    try:
        yield
    finally:
        if before is None:
            del os.environ[ALLOWED]
        else:
            os.environ[ALLOWED] = before


def unproved_text(port: Path, room: Path) -> str:
    """The module without a proof."""
    crate = port / "crates" / CARD
    with allowing_c(with_c(port)):
        kit, modules = Kit(room), command("bench/unproved").modules
        text, proved = modules(kit, as_program(crate, kit.room), empty(crate, kit.room))
    return as_library(text, proved, crate)


def proved_text(port: Path, room: Path) -> str:
    """The module as the toolchain compiles it behind the proof of the port."""
    kit = kit_folder()
    kept, copy, compiler = room / "proved.bc", room / "kit", kit / "toolchain/bin/clang"
    link_all(kit, copy, {"bin", "toolchain"})
    link_all(kit / "toolchain", copy / "toolchain", {"bin"})
    link_all(kit / "toolchain/bin", copy / "toolchain/bin", {"clang"})
    link_all(kit / "bin", copy / "bin", {"rt", "rtlib.py"})
    for name in ("rt", "rtlib.py"):
        shutil.copy(kit / "bin" / name, copy / "bin" / name)
    write_program(copy / "toolchain/bin/clang", KEEPER.format(kept=kept, compiler=compiler))
    environment = {**os.environ, ALLOWED: with_c(port), "PATH": f"{copy / 'bin'}:{os.environ['PATH']}"}
    crate = port / "crates" / CARD
    # (an archive that is there is taken as it is, and nothing is compiled)
    (crate / f"out/lib{CARD}.a").unlink(missing_ok=True)
    words = [str(copy / "bin/rt"), "lib", "--jobs", "1"]
    if subprocess.run(words, cwd=crate, env=environment, stdout=sys.stderr, check=False).returncode:
        raise Failed(f"{crate} isn't proved")
    if not kept.is_file():
        raise Strange("it proved the library and compiled no module")
    text = room / "proved.ll"
    of_module = ["-x", "ir", kept, "-S", "-emit-llvm", "-O0", "-Xclang", "-disable-llvm-passes", "-o", text]
    run(compiler, f"--target={TARGET}", "--no-default-config", *of_module)
    return text.read_text(encoding="utf-8")


TEXTS: dict[bool, Callable[[Path, Path], str]] = {False: unproved_text, True: proved_text}
