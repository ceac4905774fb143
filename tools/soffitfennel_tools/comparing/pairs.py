"""Two cards that are given the same lines, and what they answer differently, by the shortest script that shows it."""
from __future__ import annotations

from collections.abc import Callable
from dataclasses import dataclass

from ..explaining.commands import Command
from ..explaining.templates import Template
from ..script_lines import ORDERS as ALL_ORDERS

from .sides import Side

# the orders that a reader has too, and those that the bench alone has
ORDERS = ("on", "off", "apdu")
ONLY_BENCH = tuple(it for it in ALL_ORDERS if it not in ORDERS)


@dataclass
class Exchange:
    """A line, and what the two cards print."""

    line: str
    card: str | None
    bench: str | None


# what gets a whole run
Keep = Callable[[list[Exchange]], None]


@dataclass
class Difference:
    """A line that the cards answer differently, and the shortest script that shows it."""

    number: int
    exchange: Exchange
    script: list[str]
    is_repeatable: bool = True
    others: int = 0

    def kind(self) -> tuple[str, str, str]:
        """What makes two differences the same: the command's header, its class and instruction, and both statuses."""
        key = Command(bytes.fromhex(self.exchange.line.partition(" ")[2])).key
        return key, (self.exchange.card or "")[-4:], (self.exchange.bench or "")[-4:]


def usable(lines: list[str]) -> list[str]:
    """The lines that both cards know; power comes first."""
    kept = [line for line in lines if line.partition(" ")[0] in ORDERS]
    return kept if kept[:1] == ["on"] else ["on", *kept]


def cleaning(lines: list[str]) -> list[str]:
    """Lines that delete from the MF what a script creates, for a card that nobody can make new."""
    made = []
    for line in lines:
        it = Command(bytes.fromhex(line.partition(" ")[2])) if line.startswith("apdu ") else None
        identifier = Template(it.data).identifier if it and it.key == "00E0" else ""
        if len(identifier) == 4 and identifier not in made:
            made.append(identifier)
    return ["on", *(line for it in made for line in ("apdu 00A4000C", f"apdu 00E4000002{it}"))] if made else ["on"]


class Pair:
    """The card that is looked at, and the bench's."""

    def __init__(self, card: Side, bench: Side, has_data: bool, is_cleaned: bool):
        self.card, self.bench, self.has_data, self.is_cleaned = card, bench, has_data, is_cleaned

    def differs(self, it: Exchange) -> bool:
        """Whether two answers to a command differ, in the status alone or in the data too."""
        if not it.line.startswith("apdu "):
            return False
        return it.card != it.bench if self.has_data else (it.card or "")[-4:] != (it.bench or "")[-4:]

    def exchange(self, line: str) -> Exchange:
        """A line for both."""
        return Exchange(line, self.card.line(line), self.bench.line(line))

    def run(self, lines: list[str], clean: list[str]) -> list[Exchange]:
        """A run of a script: over new cards, or over cards without the files that the script creates."""
        if self.card.is_renewable:
            self.card.renew()
            self.bench.renew()
        elif self.is_cleaned:
            for line in clean:
                self.exchange(line)
        return [self.exchange(line) for line in lines]

    def differences(self, lines: list[str], most: int, keep: Keep | None = None) -> list[Difference]:
        """The differences of a script, each kind once, with the shortest script for it; `keep` gets the whole run."""
        clean = cleaning(lines)
        found: dict[tuple[str, str, str], Difference] = {}
        whole = self.run(lines, clean)
        if keep:
            keep(whole)
        for place, it in enumerate(whole):
            if self.differs(it):
                one = Difference(place, it, lines[: place + 1])
                first = found.setdefault(one.kind(), one)
                first.others += first is not one
        for one in list(found.values())[:most]:
            self.shorten(one, clean)
        return list(found.values())

    def shorten(self, one: Difference, clean: list[str]) -> None:
        """Leaves out lines as long as the last one is answered differently in the same way."""

        def shows(lines: list[str]) -> bool:
            last = self.run(lines, clean)[-1]
            return self.differs(last) and Difference(0, last, lines).kind() == one.kind()

        last = one.exchange.line
        one.is_repeatable = shows(one.script)
        if one.is_repeatable:
            kept = shortest(one.script[:-1], lambda kept: shows(["on", *kept, last]))
            one.script = ["on", *kept, last]


def shortest(lines: list[str], holds: Callable[[list[str]], bool]) -> list[str]:
    """Fewer of the lines with which it holds. Parts are left out, from halves down to single lines."""
    kept = lines[1:] if lines[:1] == ["on"] else lines
    size = max(1, len(kept) // 2)
    while kept:
        place, before = 0, len(kept)
        while place < len(kept):
            fewer = kept[:place] + kept[place + size :]
            if holds(fewer):
                kept = fewer
            else:
                place += size
        if size == 1 and len(kept) == before:
            break
        size = max(1, size // 2)
    return kept
