"""A card that lines of a script are given to: the bench's program, or the card in a reader of PC/SC."""
from __future__ import annotations

import subprocess
import time
from importlib import import_module
from types import ModuleType
from typing import Protocol

from ..script_lines import ORDERS_THAT_PRINT

# seconds that a reader may take to have its card again, after an error
BACK_AFTER = 10.0
GET_RESPONSE = "00C00000"


class Trouble(Exception):
    """A card can't be used: why."""


class Side(Protocol):
    """One of the two cards."""

    # whether `renew` gives the card of the beginning again
    is_renewable: bool

    def renew(self) -> None:
        """Gives a new card, where that can be."""

    def line(self, line: str) -> str | None:
        """What a line of a script prints; None where it prints nothing."""

    def close(self) -> None:
        """Ends the use of the card."""


class Program:
    """The card of a program that speaks the bench's language."""

    is_renewable = True

    def __init__(self, program: str, preparation: list[str]):
        self.program, self.preparation = program, preparation
        self.process: subprocess.Popen[bytes] | None = None
        self.renew()

    def renew(self) -> None:
        """A new run of the program."""
        self.close()
        try:
            self.process = subprocess.Popen([self.program], stdin=subprocess.PIPE, stdout=subprocess.PIPE)
        except OSError as error:
            raise Trouble(f"the program {self.program} can't be run: {error.strerror}") from error
        for line in self.preparation:
            self.line(line)

    def line(self, line: str) -> str | None:
        """What a line prints."""
        assert self.process and self.process.stdin and self.process.stdout
        try:
            self.process.stdin.write(line.encode("latin-1") + b"\n")
            self.process.stdin.flush()
        except BrokenPipeError:
            raise Trouble(f"the program {self.program} has ended before the line {line!r}") from None
        if line.partition(" ")[0] not in ORDERS_THAT_PRINT:
            return None
        answer = self.process.stdout.readline().decode("latin-1").rstrip("\n")
        if not answer:
            raise Trouble(f"the program {self.program} says nothing to the line {line!r}")
        return answer

    def close(self) -> None:
        """Ends the program."""
        if self.process and self.process.stdin and self.process.stdout:
            try:
                self.process.stdin.close()
            except BrokenPipeError:
                pass
            self.process.stdout.close()
            self.process.wait()


def scard() -> ModuleType:
    """Debian's module for PC/SC."""
    try:
        module = import_module("smartcard.scard")
    except ImportError:
        why = "this python3 has no pyscard: apt-get install python3-pyscard, and /usr/bin/python3 tools/compare .."
        raise Trouble(why) from None
    return module


def reader_names() -> list[str]:
    """The readers that there are."""
    pcsc = scard()
    result, context = pcsc.SCardEstablishContext(pcsc.SCARD_SCOPE_USER)
    if result:
        raise Trouble(f"there is no PC/SC service: {pcsc.SCardGetErrorMessage(result).strip()}")
    result, names = pcsc.SCardListReaders(context, [])
    pcsc.SCardReleaseContext(context)
    return list(names) if not result else []


class Reader:
    """The card in a reader. It is the same card in each run: nobody can make it new."""

    is_renewable = False

    def __init__(self, name: str):
        self.pcsc, self.name = scard(), name
        result, self.context = self.pcsc.SCardEstablishContext(self.pcsc.SCARD_SCOPE_USER)
        self.check(result, "there is no PC/SC service")
        self.card, self.protocol = None, 0
        self.insert()

    def check(self, result: int, what: str) -> None:
        """Ends where a call failed."""
        if result:
            raise Trouble(f"{what}: {self.pcsc.SCardGetErrorMessage(result).strip()}")

    def insert(self) -> None:
        """Connects to the card, which may have to come back first."""
        pcsc, end = self.pcsc, time.monotonic() + BACK_AFTER
        protocols = pcsc.SCARD_PROTOCOL_T0 | pcsc.SCARD_PROTOCOL_T1
        while True:
            result, card, protocol = pcsc.SCardConnect(self.context, self.name, pcsc.SCARD_SHARE_EXCLUSIVE, protocols)
            if not result:
                self.card, self.protocol = card, protocol
                return
            if time.monotonic() > end:
                self.check(result, f"no card in the reader {self.name}")
            time.sleep(0.2)

    def renew(self) -> None:
        """The card stays."""

    def line(self, line: str) -> str | None:
        """What the bench would print, by the card's answer."""
        order, _, digits = line.partition(" ")
        if order == "off":
            return None
        return self.power() if order == "on" else self.command(bytes.fromhex(digits))

    def power(self) -> str:
        """Power off and on."""
        pcsc = self.pcsc
        protocols = pcsc.SCARD_PROTOCOL_T0 | pcsc.SCARD_PROTOCOL_T1
        result, self.protocol = pcsc.SCardReconnect(
            self.card, pcsc.SCARD_SHARE_EXCLUSIVE, protocols, pcsc.SCARD_UNPOWER_CARD
        )
        if result:
            # (the card was out meanwhile)
            self.release()
            self.insert()
        result, _, _, _, atr = pcsc.SCardStatus(self.card)
        self.check(result, "the card has no answer to reset")
        return f"atr {bytes(atr).hex().upper()}"

    def command(self, command: bytes) -> str:
        """A command's answer. With T=0 the data of an answer is fetched, as a reader's software does."""
        is_t0 = self.protocol == self.pcsc.SCARD_PROTOCOL_T0
        has_le = len(command) > 5 and len(command) == 6 + command[4]
        answer = self.transmit(command[:-1] if is_t0 and has_le else command)
        data = b""
        while is_t0 and len(answer) >= 2 and answer[-2] == 0x61:
            data += answer[:-2]
            answer = self.transmit(bytes.fromhex(GET_RESPONSE) + answer[-1:])
        return f"< {(data + answer).hex().upper()}" if answer else "dark"

    def transmit(self, command: bytes) -> bytes:
        """A single exchange; no bytes where the reader has an error."""
        pcsc = self.pcsc
        if self.card is None:
            return b""
        header = pcsc.SCARD_PCI_T0 if self.protocol == pcsc.SCARD_PROTOCOL_T0 else pcsc.SCARD_PCI_T1
        result, answer = pcsc.SCardTransmit(self.card, header, list(command))
        return b"" if result else bytes(byte & 0xFF for byte in answer)

    def release(self) -> None:
        """Leaves the card without power."""
        if self.card is not None:
            self.pcsc.SCardDisconnect(self.card, self.pcsc.SCARD_UNPOWER_CARD)
            self.card = None

    def close(self) -> None:
        """Ends the use of the reader."""
        self.release()
        self.pcsc.SCardReleaseContext(self.context)
