"""The parts of a sweep script, for a tool that runs them itself. The rules are those of the program that sweeps."""
from __future__ import annotations

from .engine import COMMAND, PROBE, refusal
from ..script_lines import fault

NO_LINE = "it is no line of a script"
SETS_FAULT = "a sweep sets its own cuts, and its script sets no faults"
WRONG_MARK = "the mark is out of place: '# command' comes first, then '# probe', each once"
NO_DEPTH = "a depth is 0, 1, 2 or 3"
NO_COMMAND = "one apdu and nothing else has to be between '# command' and '# probe'"
NO_PROBE = "the probe is missing or empty, so nothing would look at the card"
FAULTS, DEPTH = ("cut", "lose", "garble"), "# depth "


class SweepScript:
    """The preparation, the command, the probe, and the depth."""

    def __init__(self, text: str):
        # the preparation, and behind a mark each what it begins: the command, and the probe
        self.parts: list[list[str]] = [[]]
        self.depth = 1
        lines = [line.removesuffix("\r") for line in text.split("\n")]
        for number, line in enumerate(lines, 1):
            why = self.take(line, number) or (self.missing() if number == len(lines) else None)
            if why:
                raise refusal(f"error line {number}: {why}", text)
        self.prepare, (self.command,), self.probe = self.parts

    def take(self, line: str, number: int) -> str | None:
        """Takes a line. Returns why it is a bad one, if it is."""
        if fault(line.encode("latin-1"), number, True):
            return NO_LINE
        if line in (COMMAND, PROBE):
            return self.begin(line)
        if line.startswith(DEPTH):
            return self.set_depth(line.removeprefix(DEPTH))
        order = line.split(" ")[0]
        if line.startswith("#") or order in ("", "free"):
            return None
        return SETS_FAULT if order in FAULTS else self.add(order, line)

    def begin(self, mark: str) -> str | None:
        """Begins the part behind a mark."""
        place = len(self.parts)
        if mark != (COMMAND, PROBE, None)[place - 1]:
            return WRONG_MARK
        if mark == PROBE and not self.parts[-1]:
            return NO_COMMAND
        self.parts.append([])
        return None

    def set_depth(self, digit: str) -> str | None:
        """Takes a depth."""
        if digit not in ("0", "1", "2", "3"):
            return NO_DEPTH
        self.depth = int(digit)
        return None

    def add(self, order: str, line: str) -> str | None:
        """Takes an order. Between the marks it is the only command."""
        if len(self.parts) == 2 and (order != "apdu" or self.parts[-1]):
            return NO_COMMAND
        self.parts[-1].append(line)
        return None

    def missing(self) -> str | None:
        """What is missing at the end."""
        _, command, probe = [*self.parts, [], []][:3]
        return NO_COMMAND if not command else None if probe else NO_PROBE
