"""The faults that a script has armed and that have not fired yet: a cut, a lost block, a garbled one.

The bench prints nothing of a lose or a garble, so their blocks are counted here, by docs/LINK.md. docs/SCRIPT.md says
what counts."""

from __future__ import annotations

import re
from dataclasses import dataclass

# the bytes of a command, and of an answer, in one block: an apdu line is sent only while no block line changed it
COMMAND_FIELD, ANSWER_FIELD = 254, 32
TOO_FEW = {
    "cut": "the script made fewer device writes",
    "lose": "the commands put fewer blocks on the line",
    "garble": "the commands put fewer blocks on the line",
}
FAULT = re.compile(r"(cut|lose|garble) ([0-9]{1,6})( [0-9A-Fa-f]{4})?")


@dataclass(frozen=True)
class Unfired:
    """A fault that never fired: its line, and the line that replaced it, or 0."""

    line: int
    order: str
    by: int = 0

    def words(self, by: str) -> str:
        """It in words, with those for the line that replaced it."""
        return f"never fired: {f'{by} replaced it' if self.by else TOO_FEW[self.order]}"


@dataclass
class Armed:
    """A fault that has not fired: its line, and on which block from now it fires (a cut's count is the card's)."""

    line: int
    count: int


class Pending:
    """The faults of a script that have not fired yet."""

    def __init__(self) -> None:
        self.armed: dict[str, Armed] = {}
        self.replaced: list[Unfired] = []

    def took(self, number: int, line: str) -> None:
        """Takes a line of the script that the program has read; a fault replaces the pending one of its kind."""
        if not (found := FAULT.fullmatch(line)):
            return
        order = found[1]
        if earlier := self.armed.get(order):
            self.replaced.append(Unfired(earlier.line, order, number))
        self.armed[order] = Armed(number, int(found[2]))

    def printed(self, line: str, answer: str) -> None:
        """Takes what a line printed; a cut that fires leaves the card without power."""
        if answer == "dark":
            self.armed.pop("cut", None)
        order, _, digits = line.partition(" ")
        if order != "apdu":
            return
        commands = -(-len(digits) // 2 // COMMAND_FIELD)
        if answer.startswith("< "):
            answers = -(-len(answer[2:]) // 2 // ANSWER_FIELD)
            self.exchanged(commands, 2 * (commands + answers - 1))
        elif answer == "dark":
            # (power fails as the last block of the command arrives)
            self.exchanged(commands, 2 * commands - 1)

    def exchanged(self, commands: int, blocks: int) -> None:
        """An exchange with a command of so many blocks, which puts this number on the line if nothing is wrong."""
        of_blocks = {order: it for order, it in self.armed.items() if order != "cut"}
        first = min(of_blocks, key=lambda order: (of_blocks[order].count, order == "garble"), default="")
        if first and of_blocks[first].count <= blocks:
            blocks += repair(first, of_blocks[first].count, commands)
        for order, it in of_blocks.items():
            if it.count <= blocks:
                self.armed.pop(order)
            else:
                it.count -= blocks

    def unfired(self, is_at_end: bool = True) -> list[Unfired]:
        """The faults that another one replaced, and at the end of the script those that are pending."""
        left = [Unfired(it.line, order) for order, it in self.armed.items()]
        return sorted([*self.replaced, *(left if is_at_end else [])], key=lambda it: it.line)


def repair(order: str, place: int, commands: int) -> int:
    """How many blocks more a fault at this block costs, the first of the exchange: by the tables of docs/LINK.md."""
    is_readers, is_of_command = place % 2 == 1, place <= 2 * commands - 1
    if order == "lose" and is_readers:
        # nothing reaches the card: the reader asks, the card asks back, and only a part of the command is sent again
        return 3 if is_of_command else 1
    return 2
