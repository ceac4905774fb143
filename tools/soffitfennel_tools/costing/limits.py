"""The limits of what is counted, all in one table, and the table of docs/COST.md that says what is above them, and why.

A limit is of a count of instructions, of bytes, or of a ratio to the plain core. A kind of line without a limit of its
own has that of all, without what the toolchain's libraries take. Where the page blames these libraries alone, the ratio
without them is to be within the limit."""
from __future__ import annotations

import re
from collections.abc import Iterator, Mapping
from statistics import median
from typing import NamedTuple

from .callgrind import Counts
from .decoding import decoded
from .kinds import Kind
from .page import MOST as BAND
from .page import is_near, number

# of the ratio of each kind that has no limit of its own, without the toolchain's libraries
EACH = 1.25
MEDIAN, WITHOUT = "median", "median without digits and blanking"
LIMITS: dict[str, float] = {
    MEDIAN: 1.15,
    WITHOUT: 1.05,
    "call: READ BINARY of 10 bytes": 1_600,
    "call: SELECT": 1_300,
    "call: free": 110,
    "call: `on`": 14_500,
    "instructions: `on`, 62 DFs with names of 16 bytes": 45_000,
    "SEARCH RECORD, the first byte everywhere": 1.10,
    "SEARCH RECORD backward, 254 of 129 bytes": 1.10,
    "CREATE FILE of 32,767 bytes": 1.15,
    "DELETE FILE of 10 bytes, a card of 62 files": 1.15,
    "CREATE FILE of a file that exists (6A89), a card of 62 files": 1.15,
    "SELECT by name, a card of 62 files": 1.15,
    "READ BINARY by short identifier, the last of 62 files": 1.15,
    "UPDATE BINARY that a rule refuses (6982)": 1.15,
    "I-block with SELECT": 1.15,
    "I-block with READ BINARY of 10 bytes": 1.15,
    "a comment of 1,024 bytes": 1.15,
    "`off`, without power": 1.15,
    "SELECT by the 30th of 30 similar names": 1.15,
    "stack: power-on with 64 entries and 4,096 pages": 7_168,
    "stack: SELECT": 4_096,
    "stack: CREATE FILE with 27 objects (6A80)": 7_168,
    "heap: power-on": 69_632,
}
# the part of a kind's name that has a limit in instructions, beside that of its ratio
INSTRUCTIONS = "instructions: "
HEAD = "| limit of | at most | counted | why it is more |\n|---|---|---|---|"
ROW = re.compile(r"\| (.+) \| ([\d,.]+) \| ([\d,.]+) \|(?: (.+))? \|")
# causes that are taken out of the ratio
OF_LIBRARIES = re.compile(r"digits|blanking|digits and blanking")


class Row(NamedTuple):
    """A row of the page's table."""

    most: str
    counted: str
    why: str


class Measured(NamedTuple):
    """What has a limit: what is measured, and the same without the toolchain's libraries."""

    all: float
    without: float


def rows(text: str) -> dict[str, Row]:
    """The rows of the table, by what has a limit."""
    table = text.partition(HEAD + "\n")[2].partition("\n\n")[0]
    found = (ROW.fullmatch(line) for line in table.splitlines())
    return {it[1]: Row(it[2], it[3], it[4] or "") for it in found if it}


def shown(measured: float) -> str:
    """A number as the page has it: a ratio, or a count."""
    return f"{measured:.2f}" if isinstance(measured, float) else f"{measured:,}"


def ratio(own: Counts, plain: Counts, kind: Kind, dearer: float) -> Measured:
    """The ratio of a kind to the plain core; without the libraries, if the bench decoded digits as the plain core does,
    and neither blanked a buffer. A byte in digits is dearer by so many instructions."""
    less = own.all - own.blanking - dearer * decoded(kind)
    return Measured(own.all / plain.all, less / (plain.all - plain.blanking))


def ratios(
    kinds: list[Kind], own: Mapping[str, Counts], plain: Mapping[str, Counts], dearer: float
) -> dict[str, Measured]:
    """The ratios of kinds, by their names."""
    return {it.name: ratio(own[it.name], plain[it.name], it, dearer) for it in kinds}


def instructions(own: Mapping[str, Counts]) -> dict[str, int]:
    """The instructions of the kinds that have a limit of them, by the limit's name."""
    names = [it.removeprefix(INSTRUCTIONS) for it in LIMITS if it.startswith(INSTRUCTIONS)]
    return {INSTRUCTIONS + it: own[it].all for it in names if it in own}


def medians(ratios: Mapping[str, Measured]) -> dict[str, Measured]:
    """The medians of ratios, as they are and without the toolchain's libraries."""
    (every, without) = (median(it) for it in zip(*ratios.values()))
    return {MEDIAN: Measured(every, every), WITHOUT: Measured(without, without)}


def kept(measured: Mapping[str, Measured]) -> Iterator[tuple[str, float, Measured]]:
    """What has a limit of its own, and each ratio above that of all: its name, its limit, and what is measured."""
    for name, it in measured.items():
        if name in LIMITS:
            yield name, LIMITS[name], it
        elif isinstance(it.all, float) and it.without > EACH:
            yield name, EACH, it


def number_fault(row: Row, most: float, here: float) -> str | None:
    """What is wrong with the numbers of a row, if anything."""
    if row.most != shown(most):
        return f"the limit is {shown(most)}, and {row.most} on the page"
    is_ratio = isinstance(here, float)
    is_right = abs(float(row.counted) - here) <= BAND * here if is_ratio else is_near(number(row.counted), int(here))
    return None if is_right else f"{row.counted} on the page, and {shown(here)} is measured"


def row_fault(row: Row | None, most: float, here: Measured) -> str | None:
    """What is wrong with a row of the table, if anything."""
    if row is None:
        return f"no row, and {shown(here.all)} is measured, of at most {shown(most)}"
    if fault := number_fault(row, most, here.all):
        return fault
    is_above = float(row.counted.replace(",", "")) > most
    if is_above != bool(row.why):
        return "it is above its limit without a reason" if is_above else "it has a reason, and is within its limit"
    if OF_LIBRARIES.fullmatch(row.why) and here.without > most:
        return f"without the toolchain's libraries it is {shown(here.without)}, above its limit too"
    return None


def faults(text: str, measured: Mapping[str, Measured], is_all: bool) -> Iterator[tuple[str, str | None]]:
    """Each limit, and what is wrong with its row on the page, if anything. If all is measured, also each row without a
    limit, and each limit of nothing."""
    found, known = rows(text), set()
    for name, most, here in kept(measured):
        known.add(name)
        yield f"limit of {name}", row_fault(found.get(name), most, here)
    if is_all:
        yield from ((f"limit of {name}", "no such limit is kept") for name in found.keys() - known)
        yield from ((f"limit of {name}", "nothing has this name") for name in LIMITS.keys() - measured.keys())


def table(measured: Mapping[str, Measured]) -> str:
    """The table of docs/COST.md, without reasons."""
    ordered = sorted(kept(measured), key=lambda it: list(LIMITS).index(it[0]) if it[0] in LIMITS else len(LIMITS))
    lines = [f"| {name} | {shown(most)} | {shown(here.all)} | |" for name, most, here in ordered]
    return "\n".join([HEAD, *lines])
