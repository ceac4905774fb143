"""The device writes of each command that changes the card: how many, how many of the gate, and what that wears."""
from __future__ import annotations

import json
import re
import subprocess
from collections import Counter
from collections.abc import Iterator
from concurrent.futures import ThreadPoolExecutor
from itertools import pairwise
from pathlib import Path
from tempfile import TemporaryDirectory
from typing import NamedTuple

from ..card_image.image import read_image
from .kinds import TABLE, WRITING, Kind

# a probe that writes nothing
PROBE = "apdu 00200002"
GATE = ("gate", "commit")
PAGE_WORDS = 16
# the pages of the gate and of the journal
JOURNAL = range(73, 128)
# How long a reader waits for a block: BWI 4 at 5 MHz, in milliseconds (ISO/IEC 7816-3, clause 11.4.3: 2 to the power of
# BWI, times 960, times 372 clock cycles; the 11 etu before it are left out).
WAIT = 2**4 * 960 * 372 / 5_000
WRITES_OF_A_WORD = 100_000
HEAD = """\
| command | writes | of the gate | words | pages changed | commands | ms a write |
|---|---|---|---|---|---|---|"""
ROW = re.compile(r"\| ([^|]+) \| ([\d,]+) \| ([\d,]+) \| ([\d,]+) \| ([\d,]+) \| ([\d,]+) \| ([\d.,]+) \|")


class Uncut(Exception):
    """Why the writes of a command aren't known."""


class Wear(NamedTuple):
    """The device writes of a command; `most` is the number of those of its most written word."""

    name: str
    writes: int
    gate: int
    words: int
    pages: int
    most: int

    @property
    def commands(self) -> int:
        """How many such commands a memory survives whose words last for WRITES_OF_A_WORD writes."""
        return WRITES_OF_A_WORD // self.most

    @property
    def milliseconds(self) -> str:
        """The longest that a device write may take, for an answer within the waiting time."""
        return f"{WAIT / self.writes:,.1f}"

    def row(self) -> str:
        """The row of docs/COST.md."""
        numbers = [self.writes, self.gate, self.words, self.pages, self.commands]
        return f"| {self.name} | {' | '.join(f'{it:,}' for it in numbers)} | {self.milliseconds} |"


def device_writes(sweeper: str, kind: Kind) -> list[dict[str, object]]:
    """The device writes of a command, in order, as the program that sweeps names them."""
    script = "\n".join([*kind.head, "# command", kind.line, "# probe", PROBE, "# depth 0", ""])
    ran = subprocess.run([sweeper, "1/1"], input=script, capture_output=True, text=True, check=False)
    if ran.returncode:
        raise Uncut(f"{kind.name}: {ran.stderr.strip()}")
    return [it for it in map(json.loads, ran.stdout.splitlines()) if "kind" in it]


def words_after(bench: str, lines: list[str]) -> list[int]:
    """The words of the memory after a script."""
    with TemporaryDirectory() as room:
        card = Path(room) / "card"
        script = "".join(f"{it}\n" for it in lines)
        ran = subprocess.run([bench, "--card", str(card)], input=script, capture_output=True, text=True, check=False)
        if ran.returncode:
            raise Uncut(f"the program ended with status {ran.returncode}: {ran.stderr.strip()}")
        return list(read_image(str(card))[0].words)


def changed(before: list[int], after: list[int]) -> set[int]:
    """The addresses of the words that differ."""
    return {at for at, pair in enumerate(zip(before, after, strict=True)) if pair[0] != pair[1]}


def most_writes(bench: str, kind: Kind, made: list[dict[str, object]]) -> int:
    """How often a command writes the word that it writes most. That is the gate, or the tries of a PIN, which are a
    word that is written alone. Memories that are cut behind each write show how often these change."""
    gate = sum(it["kind"] in GATE for it in made)
    if all(it["kind"] != "alone" for it in made):
        return max(gate, 1)
    cuts = range(1, len(made) + 1)
    chain = [words_after(bench, [*kind.head, *([f"cut {it} FFFF", kind.line] if it else [])]) for it in (0, *cuts)]
    return max(Counter(at for pair in pairwise(chain) for at in changed(*pair)).values())


def wear_of(bench: str, sweeper: str, kind: Kind) -> Wear | None:
    """The device writes of a command, if it makes any."""
    made = device_writes(sweeper, kind)
    if not made:
        return None
    gate = sum(it["kind"] in GATE for it in made)
    words = sum(int(str(it["words"])) for it in made)
    ends = (words_after(bench, lines) for lines in (kind.head, [*kind.head, kind.line]))
    pages = {at // PAGE_WORDS for at in changed(*ends)} - {*JOURNAL}
    return Wear(kind.name, len(made), gate, words, len(pages), most_writes(bench, kind, made))


def wears(bench: str, sweeper: str, jobs: int) -> list[Wear]:
    """The device writes of each command of docs/COST.md that makes any."""
    sent = [it for it in [*TABLE, *WRITING] if it.line.startswith("apdu")]
    with ThreadPoolExecutor(jobs) as pool:
        found = pool.map(lambda kind: wear_of(bench, sweeper, kind), sent)
        return [it for it in found if it]


def rows(text: str) -> dict[str, str]:
    """The rows of the page's table, by the name of the command."""
    found = (ROW.fullmatch(line) for line in text.splitlines())
    return {it[1]: it[0] for it in found if it}


def faults(text: str, found: list[Wear]) -> Iterator[tuple[str, str | None]]:
    """Each row of the page's table, and what is wrong with it, if anything."""
    told = rows(text)
    for it in found:
        row = told.pop(it.name, None)
        yield it.name, None if row == it.row() else f"{row or 'no row'} on the page, and {it.row()} is counted"
    for name in told:
        yield name, "no such command writes"
