"""Reads a test file: the script's lines, what each must print, and the cases that they belong to."""

from __future__ import annotations

import re
import sys
from dataclasses import dataclass, field
from pathlib import Path

from ..script_lines import ORDERS, ORDERS_THAT_PRINT

MARK = "= "
CASE = re.compile(r"# case (\S.*)")
# a comment that was meant to begin a case
NEARLY_A_CASE = re.compile(r"#\s*case\b", re.IGNORECASE)
STATUS = re.compile(r"status (0|[1-9][0-9]{0,2})")


@dataclass
class Difference:
    """What is wrong at a line of a test file: with what the line printed, or else `reason` says with what."""

    line: int
    order: str
    wanted: str | None = None
    came: str | None = None
    reason: str | None = None
    # what helps a person: a likely mistake, and the answer in words
    hint: str | None = None
    words: str | None = None


@dataclass
class Case:
    """A part of a test file, and its result; what stands before the first named one has no name."""

    path: str
    line: int = 1
    name: str = ""
    compared: int = 0
    differences: list[Difference] = field(default_factory=list)
    # the faults that never fired: they change no result
    notes: list[str] = field(default_factory=list)


@dataclass
class Line:
    """A line of the script, and what it must print, where a line of the file says so."""

    number: int
    text: str
    case: Case
    wanted: str | None = None
    wanted_at: int = 0
    difference: Difference | None = None

    def differs(self, difference: Difference) -> None:
        """Notes what is wrong with what it printed."""
        self.difference = difference
        self.case.differences.append(difference)

    def is_order(self) -> bool:
        """Whether it is neither empty nor a comment."""
        return bool(self.text) and not self.text.startswith("#")

    def prints(self) -> bool:
        """Whether the program prints a line for it, unless the run ends."""
        return self.order() in ORDERS_THAT_PRINT

    def is_silent(self) -> bool:
        """Whether it is of the language, and the program prints nothing for it."""
        return self.order() in ORDERS and not self.prints()

    def order(self) -> str:
        """Its first word."""
        return self.text.partition(" ")[0]


class Script:
    """A test file. In `text`, which the program reads, an expectation is an empty line: so lines keep their numbers."""

    def __init__(self, path: str) -> None:
        self.path = "standard input" if path == "-" else path
        self.cases = [Case(self.path)]
        self.lines: list[Line] = []
        self.text = ""
        self.status, self.status_at = 0, 0
        self.is_readable = True

    def take(self, number: int, text: str) -> bool:
        """Takes a line of the file; whether the program reads it."""
        if text.startswith(MARK):
            self.expect(number, text.removeprefix(MARK))
            return False
        line = Line(number, text, self.cases[-1])
        if self.status_at and line.is_order():
            self.refuse(number, text, f"it stands behind the exit status, line {self.status_at}")
        elif found := CASE.fullmatch(text):
            self.cases.append(Case(self.path, number, found[1]))
        elif NEARLY_A_CASE.match(text):
            self.refuse(number, text, "a case begins with '# case NAME'")
        self.lines.append(line)
        return True

    def expect(self, number: int, text: str) -> None:
        """Takes what stands behind the mark of an expectation."""
        above = next(filter(Line.is_order, reversed(self.lines)), None)
        if self.status_at:
            self.refuse(number, MARK + text, f"it stands behind the exit status, line {self.status_at}")
        elif found := STATUS.fullmatch(text):
            self.status, self.status_at = int(found[1]), number
            self.cases[-1].compared += 1
        elif above is None or above.case is not self.cases[-1]:
            self.refuse(number, MARK + text, "no line of the script stands above it in its case")
        elif above.wanted is not None:
            self.refuse(number, MARK + text, f"line {above.number} prints one line, which line {above.wanted_at} has")
        elif above.is_silent():
            self.refuse(number, MARK + text, f"line {above.number}, {above.order()}, prints nothing")
        else:
            above.wanted, above.wanted_at = text, number
            above.case.compared += 1

    def last(self) -> int:
        """The number of the last line of the script."""
        return self.lines[-1].number if self.lines else 0

    def refuse(self, number: int, text: str, reason: str) -> None:
        """Notes what is wrong with a line of the file."""
        self.cases[-1].differences.append(Difference(number, text, reason=reason))

    def read(self, content: str) -> None:
        """Takes the lines of the file."""
        texts = content.removesuffix("\n").split("\n")
        kept = [text if self.take(at, text.removesuffix("\r")) else "" for at, text in enumerate(texts, 1)]
        self.text = "\n".join(kept) + "\n" * content.endswith("\n")


def content_of(path: str) -> str:
    """The content of a file, or of standard input, a character for each byte."""
    content = sys.stdin.buffer.read() if path == "-" else Path(path).read_bytes()
    return content.decode("latin-1")


def read_script(path: str) -> Script:
    """Reads a test file; that it can't be read is a difference of its one case."""
    script = Script(path)
    try:
        script.read(content_of(path))
    except OSError as error:
        script.is_readable = False
        script.refuse(0, "", f"it can't be read: {error.strerror}")
    return script
