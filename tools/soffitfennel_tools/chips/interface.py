"""The functions between the card and C: the header's prototypes are those of the module.

A prototype with a number of another width compiles and links, and the card then reads another number."""
from __future__ import annotations

import re

from ..unproving.kit import Failed

PROTOTYPE = re.compile(r"^(\w+ \*?)(\w+)\(([^;{]*)\);$", re.M)
OF_MODULE = re.compile(r'^(define|declare) (?!internal )((?:\w+ )+?)@((?:card|device|port)_\w+)\((.*)\) #\d+', re.M)
KINDS = {
    "void": "void", "bool": "i1", "uint8_t": "i8", "uint16_t": "i16", "uint32_t": "i32", "uint64_t": "i64",
}
# The functions that give the card its place: the module has the toolchain's allocator in their place, and the rewriting
# calls them by other names.
PLACES = {"heap_get": ("port_place", "ptr", "i32", "i32"), "heap_put": ("port_place_back", "void", "ptr")}
ALLOCATES = "@rattle_alloc("
# the bytes of a place and its alignment, in the module and in the header
ASKED = re.compile(r'@"std_heap::GlobalAllocator::(?:de)?allocate"\([^)]*, i64 (\w+), i64 (\w+)\)')
SIZE = re.compile(r"\bCARD_BYTES = (\d+)\b")
ALIGNED = "8"
# what says nothing of a width
MARKS = {"noundef", "zeroext", "signext"}


def of_header(text: str) -> dict[str, tuple[str, ...]]:
    """Each function of a header: the kind of its result, then those of its parameters."""
    found = {}
    for result, name, words in PROTOTYPE.findall(text):
        parameters = [] if words == "void" else re.split(r",\s+", words)
        found[name] = tuple(kind(it) for it in [result, *parameters])
    return found


def kind(parameter: str) -> str:
    """The kind of a parameter, or of a result."""
    if "*" in parameter:
        return "ptr"
    word = parameter.split()[0]
    if word not in KINDS:
        raise Failed(f"the header's type {parameter} has no width of its own: take one of stdint.h")
    return KINDS[word]


def of_module(text: str) -> dict[str, tuple[str, ...]]:
    """Each function between the card and C, as the module has it."""
    found = {}
    for _, result, name, words in OF_MODULE.findall(text):
        parameters = [it for it in words.split(", ") if it]
        found[name] = tuple(next(word for word in it.split() if word not in MARKS) for it in [result, *parameters])
    if ALLOCATES in text:
        found |= {name: tuple(kinds) for name, *kinds in PLACES.values()}
    return found


def imports(text: str) -> list[str]:
    """The functions of C that the module calls."""
    return sorted(name for what, _, name, _ in OF_MODULE.findall(text) if what == "declare")


def compare(header: str, module: str) -> None:
    """Refuses a header that isn't the module's."""
    wanted, written = of_module(module), of_header(header)
    for name, kinds in wanted.items():
        if name not in written:
            raise Failed(f"the header lacks {name}")
        if written[name] != kinds:
            raise Failed(f"the header has {name} as {written[name]}, and the module as {kinds}")
    for name in written:
        if name not in wanted:
            raise Failed(f"the module lacks {name}, which the header has")
    compare_place(header, module)


def compare_place(header: str, module: str) -> None:
    """Refuses a header that has another size of the card's place."""
    size = SIZE.search(header)
    for asked in sorted(set(ASKED.findall(module))):
        if not size or asked != (size[1], ALIGNED):
            raise Failed(f"the card needs {asked[0]} bytes, aligned to {asked[1]}: the header has another CARD_BYTES")


def named(text: str) -> str:
    """A rewritten module with the header's names of the functions that give the card its place."""
    for name, (own, *_) in PLACES.items():
        text = text.replace(f"@{name}(", f"@{own}(")
    return text
