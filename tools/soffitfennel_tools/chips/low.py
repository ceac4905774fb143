"""The rewritten module on a processor of 64 bits: only the rewriting differs from the module as the toolchain has it.

The program's memory lies below 4 GiB. The upper half of each pointer in memory is wild, and a load drops it, as on a
processor of 32 bits."""
from __future__ import annotations

import re

from ..narrowing.rewriting import Rewriting
from ..unproving.kit import Strange
from .interface import imports, named

WILD = 0xA5A5A5A5 << 32
LOWER = (1 << 32) - 1
LOADED = re.compile(r"^(%[\w.]+) = inttoptr i64 (%wide\d+) to ptr$", re.M)
STORED = re.compile(r"^(%wide\d+) = ptrtoint ptr (.+) to i64\n(?=store i64 \1, )", re.M)


def low(text: str, work: Rewriting | None = None) -> str:
    """The module, rewritten by the rules for 32 bits, with the first processor's layout of data."""
    first = re.findall(r"^target (?:datalayout|triple) = .*$", text, re.M)
    made = (work or Rewriting({it: it for it in imports(text)}, "riscv32")).module(text)
    for line in first:
        made = re.sub(rf"^target {line.split()[1]} = .*$", line.replace("\\", r"\\"), made, flags=re.M)
    # an address has 8 bytes there
    made = made.replace("{ ptr, i32 } {", "{ ptr } {").replace("{ ptr, i32 }", "{ ptr }").replace(", i32 0 }", " }")
    made, loads = LOADED.subn(rf"\2.low = and i64 \2, {LOWER}\n\1 = inttoptr i64 \2.low to ptr", made)
    wild = WILD - (1 << 64)
    made, stores = STORED.subn(rf"\1.high = ptrtoint ptr \2 to i64\n\1 = or i64 \1.high, {wild}\n", made)
    if not loads or not stores:
        raise Strange("no pointer of the module is loaded, or none is stored")
    return named(made)
