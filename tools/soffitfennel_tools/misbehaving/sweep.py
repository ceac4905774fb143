"""Each fault at each answer block of three commands, and what a reader's end makes of it."""
from __future__ import annotations

import subprocess
import sys
from collections import Counter
from collections.abc import Iterator
from dataclasses import dataclass, field
from pathlib import Path

from ..commands import command as tool
from .card import BadCard
from .faults import FAULTS

TOOL = Path(__file__).resolve().parent.parent.parent / "badcard"
PATIENCE = 60
PATTERN = bytes((7 * it + 3) & 255 for it in range(255)).hex().upper()
CYCLIC = "apdu 00E000001A621882044621000383026F038800800200098A01058C03030000"
BINARY = "apdu 00E000001962178202412183026F02880118800201008A01058C03030000"
BEGIN = 5


@dataclass(frozen=True)
class Trial:
    """A command that is spoiled: lines before it, its right answer, its blocks, and a look at what it left."""

    name: str
    before: list[str]
    command: str
    answer: str
    blocks: int
    after: list[str] = field(default_factory=list)


TRIALS = (
    Trial(
        "INCREASE",
        [CYCLIC, "apdu 00DC000303000005"],
        "apdu 803200000300000100",
        "< 0000060000019000",
        1,
        ["apdu 00A4000C026F03", "apdu 00B2010403"],
    ),
    Trial("READ BINARY", [BINARY, f"apdu 00D60000FF{PATTERN}"], "apdu 00B0000000", f"< {PATTERN}FF9000", 2),
    Trial("UPDATE BINARY", [BINARY], f"apdu 00D60000FF{PATTERN}", "< 9000", 2),
)


class OwnReader:
    """The reader's end of tools/serial, over a card that misbehaves."""

    def __init__(self, card: BadCard):
        self.card, self.counts = card, False
        self.tool = tool("serial")
        self.end = None

    def send(self, block: bytes) -> tuple[bytes | None, int]:
        """What comes back of a block, and how many blocks were on the line."""
        return self.card.block(block), 2

    def answer(self, line: str) -> str:
        """What a line prints."""
        if not line.startswith("apdu "):
            self.end = self.tool.Reader(self)
            return self.card.ask(line)
        assert self.end
        answer = self.end.take(bytes.fromhex(line[5:]))
        return "lost" if answer is None else f"< {answer.hex().upper()}"


def by_own_reader(words: list[str], fault: str | None, place: int, lines: list[str]) -> tuple[list[str], int]:
    """What the reader's end of tools/serial prints, and how many blocks the card answered."""
    card = BadCard(words, fault, place)
    try:
        reader = OwnReader(card)
        return [reader.answer(it) for it in lines], card.blocks
    finally:
        card.end()


def by_program(reader: list[str], words: list[str], fault: str, place: int, lines: list[str]) -> list[str]:
    """What a reader's end in a program of its own prints. It gets the words that start the card behind --."""
    command = [*reader, "--", sys.executable, str(TOOL), "--fault", f"{fault}@{place or '*'}", "--", *words]
    ran = subprocess.run(
        command, input="\n".join([*lines, ""]), text=True, capture_output=True, check=False, timeout=PATIENCE
    )
    if ran.returncode < 0 or "ERROR: AddressSanitizer" in ran.stderr or "runtime error" in ran.stderr:
        return ["CRASH"] * len(lines)
    return (ran.stdout.splitlines() + [""] * len(lines))[: len(lines)]


def outcome_of(trial: Trial, answer: str, left: str) -> str:
    """What became of a spoiled command."""
    if trial.after and left.startswith("< ") and left.endswith("9000"):
        times = int(left[2:8], 16) - BEGIN
        if times not in (0, 1):
            return f"carried out {times} times"
    if answer == trial.answer:
        return "right"
    return {"lost": "told", "CRASH": "a crash", "HANG": "a hang", "": "no line"}.get(answer, "a wrong answer")


def sweep(words: list[str], reader: list[str], faults: list[str]) -> Iterator[tuple[str, str, int, str]]:
    """Each of these faults, command, block, and outcome."""
    for trial in TRIALS:
        begin = by_own_reader(words, None, 0, ["on", *trial.before])[1]
        for fault in faults:
            for block in range(1, trial.blocks + 1):
                lines = ["on", *trial.before, trial.command, *(["on", *trial.after] if trial.after else [])]
                try:
                    if reader:
                        came = by_program(reader, words, fault, begin + block, lines)
                    else:
                        came = by_own_reader(words, fault, begin + block, lines)[0]
                except subprocess.TimeoutExpired:
                    came = ["HANG"] * len(lines)
                answer = came[1 + len(trial.before)]
                yield fault, trial.name, block, outcome_of(trial, answer, came[-1])


def is_bad(fault: str, outcome: str) -> bool:
    """Whether a reader could have done better."""
    return outcome not in ("right", "told") and (FAULTS[fault].can_tell or outcome != "a wrong answer")


def table(found: list[tuple[str, str, int, str]]) -> Iterator[str]:
    """A line for each fault."""
    for fault, it in FAULTS.items():
        outcomes = Counter(outcome for name, _, _, outcome in found if name == fault)
        if not outcomes:
            continue
        told = ", ".join(f"{number} {outcome}" for outcome, number in sorted(outcomes.items()))
        yield f"{fault:<11}{told}  ({it.words}{'' if it.can_tell else '; no reader can tell'})"
