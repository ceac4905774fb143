"""Plays scripts on the programs of examples/chip: on this machine, and on boards of qemu."""
from __future__ import annotations

import re
import select
import subprocess
from collections.abc import Iterator
from contextlib import contextmanager
from pathlib import Path
from typing import Any, Protocol

from ...chips.targets import Target
from ...commands import command

CUT, SUM = 5, 6
DARK = 2
QUIET = ("-display", "none", "-monitor", "none", "-nic", "none")
serial: Any = command("serial")


class Port(Protocol):
    """A port that carries orders to a card, and their outcomes."""

    def ask(self, order: int, sent: bytes = b"") -> tuple[int, bytes]:
        """The outcome of an order, and the reply."""


class Pipe:
    """The program on this machine: its port is its standard input and output."""

    def __init__(self, program: Path):
        self.process = subprocess.Popen([program], stdin=subprocess.PIPE, stdout=subprocess.PIPE, bufsize=0)

    def read(self, size: int) -> bytes:
        """So many bytes."""
        assert self.process.stdout
        got = b""
        while len(got) < size:
            if not select.select([self.process.stdout], [], [], serial.PATIENCE)[0]:
                raise serial.Stopped("the program is silent")
            part = self.process.stdout.read(size - len(got))
            if not part:
                raise serial.Stopped(f"the program has ended with status {self.process.wait()}")
            got += part
        return got

    def ask(self, order: int, sent: bytes = b"") -> tuple[int, bytes]:
        """The outcome of an order, and the reply."""
        assert self.process.stdin
        try:
            self.process.stdin.write(bytes([order]) + len(sent).to_bytes(2, "big") + sent)
        except BrokenPipeError:
            raise serial.Stopped("the program has ended") from None
        outcome, *size = self.read(3)
        return outcome, self.read(int.from_bytes(bytes(size), "big"))


class Dark(Exception):
    """Power was lost in a block."""


class Line(serial.Line):  # type: ignore[misc]
    """The line between both ends, where a block can lose power."""

    def send(self, block: bytes) -> tuple[bytes | None, int]:
        """What comes back of a block, or None, and how many blocks were on the line."""
        there = self.arrives(block)
        if there is None:
            return None, 1
        outcome, reply = self.port.ask(serial.BLOCK, there)
        if outcome == DARK:
            raise Dark
        if outcome:
            raise serial.Stopped(f"the card has outcome {outcome} in a command")
        return self.arrives(reply), 2


class Script(serial.Script):  # type: ignore[misc]
    """A script that runs on a card, with cuts."""

    reader: Any
    has_power: bool

    def __init__(self, port: Port):
        super().__init__(port)
        self.line = Line(port)

    def run(self, line: str) -> str | None:
        """What a line prints."""
        if line.startswith("cut "):
            _, write, mask = line.split(" ")
            self.port.ask(CUT, int(write).to_bytes(4, "big") + bytes.fromhex(mask))
            return None
        if line.startswith("block ") and self.reader:
            # (a block of the script's own puts the ends out of step)
            self.reader.is_dead = True
        try:
            printed: str | None = super().run(line)
            return printed
        except Dark:
            self.has_power, self.reader = False, None
            return "dark"


def play(port: Port, lines: list[str]) -> tuple[list[str], list[str]]:
    """What the lines of a script print, and the sum of all words behind each line."""
    script, printed, sums = Script(port), [], []
    try:
        for line in lines:
            text = script.run(line)
            printed += [text] if text is not None else []
            sums.append(port.ask(SUM)[1].hex())
    except serial.Stopped as why:
        printed.append(f"stopped: {why}")
    return printed, sums


@contextmanager
def started(target: Target, program: Path, *words: str) -> Iterator[Port]:
    """A program on its board."""
    if target.architecture is None:
        pipe = Pipe(program)
        try:
            yield pipe
        finally:
            pipe.process.kill()
            pipe.process.wait()
        return
    with board(target, program, *words) as path:
        port = serial.Port(path)
        try:
            yield port
        finally:
            port.close()


@contextmanager
def board(target: Target, program: Path, *words: str) -> Iterator[str]:
    """A board of qemu with a program, and the path of its serial port."""
    command = [*target.emulator, *QUIET, "-serial", "pty", *words, "-kernel", str(program)]
    with subprocess.Popen(command, stdout=subprocess.PIPE, stderr=subprocess.STDOUT, text=True) as process:
        try:
            assert process.stdout
            found = None
            while not found and (line := process.stdout.readline()):
                found = re.search(r"/dev/pts/\d+", line)
            if not found:
                raise serial.Stopped("the emulator has no port")
            yield found[0]
        finally:
            process.kill()
