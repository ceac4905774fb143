"""The crate of the library as a program, which `rt try` takes: its main calls each function that C sees.

A proved library has a function for C before each such function, which takes a null slice for one without elements. So
the module is that of the program without main, with the functions for C of a proved library whose own do nothing.
Its functions have the order of the proved library, which tools/words/proved.sum stores, so that both have one code."""
import re
import shutil
from pathlib import Path
from typing import NamedTuple

from .module import FUNCTION

STORED = Path(__file__).resolve().parent.parent.parent / "words" / "proved.sum"
EXPORT = re.compile(r'^pub extern "C" fn (\w+)\(([^)]*)\)((?: -> \w+)?)', re.M)
PARAMETER = re.compile(r"\w+: ([^,]+)")
# it has no card and no reader at all, so that it needs nothing that the library doesn't
MAIN = """
fn no_card() -> Option<Handle> {{
    None
}}

fn no_reader() -> Option<reader_handle::ReaderHandle> {{
    None
}}

fn call(rt: HostRuntime, mut card: Handle, mut reader: reader_handle::ReaderHandle) {{
{calls}
    drop(card.into_session());
    drop(reader.into_reader());
}}

fn main(rt: HostRuntime) {{
    if let Some(card) = no_card() {{
        match no_reader() {{
            Some(reader) => call(rt, card, reader),
            None => drop(card.into_session()),
        }}
    }}
}}
"""
EMPTY = """//! The functions that C sees. They do nothing.
#![tactic(auto)]
use std::alloc::Global;
/// A card.
#[repr(C)]
pub struct Handle {
    at: *mut u8,
}
/// A reader.
#[repr(C)]
pub struct ReaderHandle {
    at: *mut u8,
}
"""
EMPTY_EXPORT = '#[unsafe(no_mangle)]\npub extern "C" fn {}({}){} {{\n    {}\n}}\n'
KNOWN = {"Global": "rt.alloc()", "&mut Handle": "&mut card", "&mut ReaderHandle": "&mut reader", "bool": "false"}
# a name of a module, and what it numbers
NAME = re.compile(r'@("[^"]*"|[\w.]+)')
STATIC = re.compile(r"^@(static\.\d+) = [^\n]*\n", re.M)


class Export(NamedTuple):
    """A function that C sees: its path in the crate, its name, parameters and result."""

    path: str
    name: str
    words: str
    result: str


def exports(crate: Path) -> list[Export]:
    """The functions that C sees, in the order of the proved library."""
    stored = re.search(r"^exports: (.*)$", STORED.read_text(encoding="utf-8"), re.M)
    order = stored[1].split() if stored else []
    found = []
    for file in crate.glob("src/*.rt"):
        module = "" if file.stem == "lib" else f"{file.stem}::"
        found += [Export(module + it[0], *it) for it in EXPORT.findall(file.read_text(encoding="utf-8"))]
    return sorted(found, key=lambda it: (order.index(it.name) if it.name in order else len(order), it.name))


def argument(kind: str) -> str:
    """A value of a parameter's type."""
    if kind in KNOWN:
        return KNOWN[kind]
    form = re.fullmatch(r"(?:(&(?:mut )?)(\[?))?([ui](?:\d+|size))\]?", kind)
    if not form:
        raise ValueError(f"a parameter's type is new: {kind}")
    reference, is_slice, number = form[1] or "", form[2], f"0{form[3]}"
    return f"{reference}[{number}; 4]" if is_slice else f"{reference}{number}"


def as_program(crate: Path, room: Path) -> Path:
    """A copy of the crate as a program, and copies of all other crates beside it, in a folder of ours."""
    top = room / "program"
    for source in crate.parent.glob("*/src"):
        shutil.copytree(source, top / "crates" / source.parent.name / "src")
    listed = (crate.parent.parent / "crates.txt").read_text(encoding="utf-8")
    (top / "crates.txt").write_text(listed.replace(f"{crate.name} staticlib:", f"{crate.name}:"), encoding="utf-8")
    calls = [(it.path, ", ".join(map(argument, PARAMETER.findall(it.words)))) for it in exports(crate)]
    main = MAIN.format(calls="\n".join(f"    {path}({words});" for path, words in calls))
    library, program = (top / "crates" / crate.name / "src" / it for it in ("lib.rt", "main.rt"))
    program.write_text(library.read_text(encoding="utf-8") + main, encoding="utf-8")
    library.unlink()
    return program.parent.parent


def empty(crate: Path, room: Path) -> Path:
    """A library with the same functions for C, which do nothing."""
    top = room / "empty"
    (top / "crates" / crate.name / "src").mkdir(parents=True)
    (top / "crates.txt").write_text(f"{crate.name} staticlib: core std_alloc\n", encoding="utf-8")
    text = EMPTY
    for it in exports(crate):
        words = re.sub(r"(\w+): ", r"_\1: ", " ".join(it.words.split()))
        text += EMPTY_EXPORT.format(it.name, words, it.result, "0" if it.result else "")
    (top / "crates" / crate.name / "src/lib.rt").write_text(text, encoding="utf-8")
    return top / "crates" / crate.name


def as_library(text: str, proved: str, crate: Path) -> str:
    """The module of that program as the library's, with the functions for C of the proved one."""
    made = {name_in(it[0]): it[0] for it in FUNCTION.finditer(proved)}
    # (the empty library has them all in its root)
    name = f"{crate.name}::"
    for_c = "\n".join(made[it.name].replace(name + it.name, name + it.path) for it in exports(crate))
    text = FUNCTION.sub(lambda it: "" if it[0].startswith("define i32 @main(") else it[0], text)
    at = text.index("\ndeclare ") + 1
    return only_read(f"{text[:at]}{for_c}\n{text[at:]}")


def name_in(function: str) -> str:
    """The first name in a function's text, which is its own."""
    found = NAME.search(function)
    assert found
    return found[1]


def only_read(text: str) -> str:
    """The module with what its visible functions read, numbered anew."""
    functions = {name_in(it[0]): it[0] for it in FUNCTION.finditer(text)}
    bodies = functions | {it[1]: it[0] for it in STATIC.finditer(text)}
    waiting, read = [name for name, it in functions.items() if not it.startswith("define internal ")], set()
    while waiting:
        name = waiting.pop()
        if name not in read:
            read.add(name)
            waiting += NAME.findall(bodies.get(name, ""))
    text = FUNCTION.sub(lambda it: it[0] if name_in(it[0]) in read else "", text)
    text = STATIC.sub(lambda it: it[0] if it[1] in read else "", text)
    numbers = {it[1]: f"@static.{at}" for at, it in enumerate(STATIC.finditer(text))}
    return re.sub(r"@(static\.\d+)\b", lambda it: numbers[it[1]], text)
