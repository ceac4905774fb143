"""The bound of the stack: the deepest path of calls, by the frames that the compiler reports.

It is a bound for every input, since no function calls itself, by way of others either, and none is called by pointer:
where that isn't so, there is no bound. The C functions come on top."""
from __future__ import annotations

import re
from collections import defaultdict
from dataclasses import dataclass
from pathlib import Path

from ..unproving.kit import Strange

NAME = r'(?:"[^"]+"|[\w.$]+)'
LABEL = re.compile(rf"^({NAME}):")
TYPE = re.compile(rf"^\s*\.type\s+({NAME}),\s*[@%]function")
# a call, or a jump to another function at the end of one
CALL = re.compile(rf"^\s+(?:bl|call|tail)\s+(?!\.L)({NAME})$")
JUMP = re.compile(rf"^\s+\S+\s+(?:.*, ?)?({NAME})$")
# (a table of jumps is a tbb or a tbh, or is excluded by the words for the compiler)
BY_POINTER = re.compile(r"^\s+(?:blx|bx\w*\s+(?!lr\b)|mov\w*\s+pc,|ldr\w*\s+pc,|add\s+pc,|jalr\b|jr\s+(?!ra\b))")


@dataclass(frozen=True)
class Bound:
    """The bytes of the deepest path, the path with each frame, and the functions of C at which paths end."""

    size: int
    path: tuple[tuple[str, int], ...]
    outside: tuple[str, ...]


def frames(usage: str) -> dict[str, int]:
    """The frame of each function in bytes, by the compiler's file of them."""
    found = {}
    for line in usage.splitlines():
        name, size, how = line.rsplit("\t", 2)
        if how != "static":
            raise Strange(f"the frame of {name} grows as it runs")
        # (the name of the file and a colon stand before it)
        found[re.sub(r"^[^:]*:(?=[^:])", "", name, count=1)] = int(size)
    return found


def calls(assembly: str) -> dict[str, set[str]]:
    """The functions that each function calls."""
    functions = {it.strip('"') for it in re.findall(TYPE.pattern, assembly, re.M)}
    found: dict[str, set[str]] = defaultdict(set)
    function = ""
    for line in assembly.splitlines():
        label = LABEL.match(line)
        if label and label[1].strip('"') in functions:
            function = label[1].strip('"')
            found[function] = set()
        elif BY_POINTER.match(line):
            raise Strange(f"{function} calls by pointer, so there is no bound of the stack: {line.strip()}")
        elif call := CALL.match(line):
            found[function].add(call[1].strip('"'))
        elif (jump := JUMP.match(line)) and jump[1].strip('"') in functions and not line.startswith("\t."):
            found[function].add(jump[1].strip('"'))
    return dict(found)


def bound(assembly: str, usage: str, start: str) -> Bound:
    """The bound from a function down."""
    below, sizes = calls(assembly), frames(usage)
    if start not in below:
        raise Strange(f"the module has no function {start}")
    known: dict[str, tuple[int, tuple[tuple[str, int], ...]]] = {}
    outside: set[str] = set()

    def deepest(name: str, above: tuple[str, ...]) -> tuple[int, tuple[tuple[str, int], ...]]:
        if name in above:
            raise Strange(f"{name} calls itself: there is no bound of the stack")
        if name not in below:
            outside.add(name)
            return 0, ()
        if name not in known:
            if name not in sizes:
                raise Strange(f"the compiler reports no frame of {name}")
            most = max((deepest(it, (*above, name)) for it in sorted(below[name])), default=(0, ()))
            known[name] = sizes[name] + most[0], ((name, sizes[name]), *most[1])
        return known[name]

    size, path = deepest(start, ())
    return Bound(size, path, tuple(sorted(outside)))


def read(assembly: Path, usage: Path, start: str) -> Bound:
    """The bound of a module that was compiled to these files."""
    return bound(assembly.read_text(encoding="utf-8"), usage.read_text(encoding="utf-8"), start)
