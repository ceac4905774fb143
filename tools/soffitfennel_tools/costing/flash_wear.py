"""The device writes of whole sessions, and what they wear of a flash and of a memory without one. The page has the
erases of a sector as worked out of the writes, at most, and as counted on a flash."""
from __future__ import annotations

import json
import os
import re
import subprocess
from collections.abc import Iterator
from concurrent.futures import ThreadPoolExecutor
from pathlib import Path
from tempfile import TemporaryDirectory
from typing import NamedTuple

from ..card_image.flash import LARGE, PAGES, STEPS
from ..card_image.image import read_image
from ..card_image.tree import read
from .flash_moves import ROUNDS, Rounds, rounds_of
from .wear import GATE, PROBE, Uncut

TOP = Path(__file__).resolve().parents[3]
CARDS, PAGE = TOP / "examples" / "cards", TOP / "docs" / "FLASH.md"
# The writes that an area takes behind a move to it, at least, if no power is lost: a move copies each page, a page
# more between two of its 64 steps with copies, and at most two slots are left, and those of the tries of a record. Two
# moves erase each sector once.
TRIES = 8
ROOM = LARGE.slots - PAGES - STEPS - TRIES - 2
MILLION = 1_000_000
HEAD = """\
| session | sector erases, at most; counted | gate without flash |
|---|---|---|"""
ROW = re.compile(r"\| (UICC|identity card|purse) \| [\d,]+; [\d,]+ \| [\d,]+ \|")
# The most records that a write may take on a flash that has half of its pages in use; those of the table's first
# session, which is the longest one.
MOST_RECORDS = 3
RECORDS = re.compile(r"\| records for each write.*\|")


class Session(NamedTuple):
    """A session of a card of examples/cards: commands with the values of PINs, as {1} for PIN 1."""

    name: str
    card: str
    commands: tuple[str, ...]


SESSIONS = (
    # a phone is switched on, and gets a message: PIN 1; keys and two locations change; the message is stored
    Session("UICC", "uicc", (
        "00A4000C022FE2", "00B000000A", "00A4000C027FF0", "0020000108{1}", "00A4000C026F07",
        "00B0000009", "00A4000C026F08", "00D60000215A{0:064X}", "00A4000C026F7E", "00D600000B0102030462F2100001FF00",
        "00A4000C026F73", "00D600000E010203040506070862F210000100", "00A4000C023F00", "00A4000C027F10",
        "00A4000C026F3C", "00DC0104B0{0:0352X}",
    )),
    # a user signs on: the certificate is read; PIN 1; the list of free space is updated
    Session("identity card", "identity", (
        "00A4040C0CA000000063504B43532D3135", "00A4000C025031", "00B0000080", "00A4000C024404", "00B0000000",
        "00A4000C024545", "00B0000000", "00B0010000", "0020000108{1}", "00A4000C025033", "00D60008081500440502010080",
    )),
    # a terminal debits: PIN 3; the amount that is spent goes up, and a line of the log is written
    Session("purse", "purse", (
        "00A4040C0BA0000000F0505552534531", "00A4000C025F01", "00B0000014", "00A4000C026F01", "00B2010404",
        "00A4000C026F02", "0020000308{3}", "803200000400000064", "00A4000C026F03", "00DC000320{0:064X}",
    )),
)


class Programs(NamedTuple):
    """The bench, the program that sweeps, and the bench on a flash."""

    bench: str
    sweeper: str
    flash: str


class FlashWear(NamedTuple):
    """A session: its commands, the device writes of the gate, and rounds of it on a flash."""

    name: str
    commands: int
    gate: int
    rounds: Rounds

    @property
    def erases(self) -> int:
        """How often each sector is erased in a million commands, at most."""
        return round(MILLION * self.rounds.writes / (self.rounds.sessions * self.commands) / (2 * ROOM))

    @property
    def counted_erases(self) -> int:
        """How often a sector was erased, for a million commands."""
        return round(MILLION * max(self.rounds.erases) / (self.rounds.sessions * self.commands))

    @property
    def gate_writes(self) -> int:
        """How often the word of the gate is written in a million commands."""
        return round(MILLION * self.gate / self.commands)

    def row(self) -> str:
        """The row of docs/FLASH.md."""
        return f"| {self.name} | {self.erases:,}; {self.counted_erases:,} | {self.gate_writes:,} |"

    def records_row(self) -> str:
        """The row of docs/FLASH.md on the records of a write. With half of the pages in use a move copies half of
        them, and as many again as it was counted to."""
        return f"| records for each write; half of the pages in use | {self.rounds.amplification:.1f}; " \
            f"{self.half_full:.1f} |"

    @property
    def half_full(self) -> float:
        """The records of a write where half of the pages are in use."""
        return (LARGE.slots - TRIES) / (LARGE.slots - TRIES - PAGES / 2 - self.rounds.again)

    def fault(self) -> str | None:
        """What doesn't fit what was worked out, if anything."""
        if {*self.rounds.erases} != {ROUNDS}:
            return f"{ROUNDS} rounds erased the sectors {sorted({*self.rounds.erases})} times"
        if self.counted_erases > self.erases or self.rounds.again > STEPS:
            return f"{self.counted_erases:,} erases, or {self.rounds.again:.0f} pages copied again in a move: too many"
        return None


def issued(bench: str, card: str, folder: Path) -> Path:
    """A new card in a file, which the bench has judged."""
    made = folder / f"{card}.card"
    words = (TOP / "tools/issue", CARDS / f"{card}.card", made)
    given = {**os.environ, "BENCH_PROGRAM": bench}
    ran = subprocess.run(words, capture_output=True, text=True, check=False, env=given)
    if ran.returncode:
        raise Uncut(f"tools/issue: {ran.stderr.strip()}")
    return made


def lines_of(session: Session, made: Path) -> list[str]:
    """The commands of a session, with the values of the card's PINs."""
    card = read(read_image(str(made))[0]).card
    if card is None:
        raise Uncut(f"{made} is no card")
    values = [0, *(it.value.hex().upper() for it in card.pins)]
    return [f"apdu {it.format(*values)}" for it in session.commands]


def check_answers(bench: str, made: Path, lines: list[str], name: str) -> None:
    """Runs a session on a copy of the card, which refuses nothing."""
    copy = made.with_suffix(".copy")
    copy.write_bytes(made.read_bytes())
    text = "".join(f"{it}\n" for it in ("on", *lines))
    ran = subprocess.run([bench, "--card", copy], input=text, capture_output=True, text=True, check=False)
    refused = [it for it in ran.stdout.splitlines()[1:] if not it.endswith("9000")]
    if ran.returncode or refused:
        raise Uncut(f"{name}: status {ran.returncode}, {refused or ran.stderr.strip()}")


def kinds(sweeper: str, made: Path, head: list[str], line: str) -> list[str]:
    """The kind of each device write of a command, as the program that sweeps names it."""
    text = "\n".join(["on", *head, "# command", line, "# probe", PROBE, "# depth 0", ""])
    words = [sweeper, "--card", str(made), "1/1"]
    ran = subprocess.run(words, input=text, capture_output=True, text=True, check=False)
    if ran.returncode:
        raise Uncut(f"{line}: {ran.stderr.strip()}")
    return [str(it["kind"]) for it in map(json.loads, ran.stdout.splitlines()) if "kind" in it]


def counted(programs: Programs, session: Session, folder: Path) -> FlashWear:
    """The device writes of each command of a session, in its place, and what rounds of it wear."""
    bench, sweeper, flash = programs
    made = issued(bench, session.card, folder)
    lines = lines_of(session, made)
    check_answers(bench, made, lines, session.name)
    found = [it for at, line in enumerate(lines) for it in kinds(sweeper, made, lines[:at], line)]
    gate = sum(it in GATE for it in found)
    return FlashWear(session.name, len(lines), gate, rounds_of(flash, made, lines, len(found)))


def flash_wears(programs: Programs, jobs: int) -> list[FlashWear]:
    """What each session wears."""
    with TemporaryDirectory() as folder, ThreadPoolExecutor(jobs) as pool:
        return list(pool.map(lambda it: counted(programs, it, Path(folder)), SESSIONS))


def flash_faults(text: str, found: list[FlashWear]) -> Iterator[tuple[str, str | None]]:
    """Each row of the page's table, and what is wrong with it, if anything; and what is wrong with what was counted."""
    told = {row[1]: row[0] for line in text.splitlines() if (row := ROW.fullmatch(line))}
    for it in found:
        shown = told.pop(it.name, None)
        yield it.name, None if shown == it.row() else f"{shown or 'no row'} on the page, and {it.row()} is counted"
        yield f"{it.name}, on a flash", it.fault()
    yield "records", records_fault(text, found[0])
    for name in told:
        yield name, "there is no such session"


def records_fault(text: str, found: FlashWear) -> str | None:
    """What is wrong with the page's row on records, if anything."""
    if found.half_full > MOST_RECORDS:
        return f"a write takes {found.half_full:.1f} records, and {MOST_RECORDS} at most are allowed"
    row, shown = found.records_row(), RECORDS.search(text)
    return None if shown and shown[0] == row else f"{shown[0] if shown else 'no row'} on the page, and {row} is counted"
