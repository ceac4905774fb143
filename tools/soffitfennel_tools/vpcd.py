"""Plays vpcd, the driver of a virtual reader, towards tools/pcsc: a loopback socket that the bridge connects to.

As vpcd does, it sends a message's length and its bytes apart, leaves the system's way to put small packets together as
it is, and takes a connection that ends in place of a length for an answer of no bytes."""
from __future__ import annotations

import socket
import subprocess
import sys
from pathlib import Path
from typing import Any

BRIDGE = Path(__file__).resolve().parent.parent / "pcsc"
POWER_OFF, POWER_ON, RESET, ANSWER_TO_RESET = b"\0", b"\1", b"\2", b"\4"
# seconds after which what doesn't come is missed
PATIENCE = 60


def start(*words: object, **more: Any) -> subprocess.Popen[str]:
    """A bridge with these words on its command line, and its standard error to be read."""
    command = [sys.executable, str(BRIDGE), *map(str, words)]
    bridge: subprocess.Popen[str] = subprocess.Popen(command, stderr=subprocess.PIPE, text=True, **more)
    return bridge


class Reader:
    """A reader of one slot."""

    def __init__(self) -> None:
        self.listener = socket.create_server(("127.0.0.1", 0))
        self.listener.settimeout(PATIENCE)
        self.port = self.listener.getsockname()[1]
        self.connection: socket.socket | None = None

    @property
    def card(self) -> socket.socket:
        """The connection to a card that was put in."""
        assert self.connection
        return self.connection

    def wait(self) -> None:
        """Waits until a card is put in."""
        self.connection, _ = self.listener.accept()
        self.card.settimeout(PATIENCE)

    def send(self, message: bytes) -> None:
        """Sends a message."""
        self.card.sendall(len(message).to_bytes(2, "big"))
        if message:
            self.card.sendall(message)

    def receive(self) -> bytes:
        """The next message, or no bytes where the connection has ended before it. An error is one within a message."""
        try:
            head = self.exactly(2)
        except ConnectionError:
            head = b""
        return self.exactly(int.from_bytes(head, "big"))

    def exactly(self, count: int) -> bytes:
        """So many bytes, or fewer where the connection has ended orderly."""
        data = b""
        while len(data) < count and (part := self.card.recv(count - len(data))):
            data += part
        return data

    def ask(self, message: bytes) -> str:
        """Sends a message and gives its answer as digits; "error" where the client gets one."""
        try:
            self.send(message)
            return self.receive().hex().upper()
        except ConnectionError:
            return "error"

    def command(self, digits: str) -> str:
        """The answer to a command."""
        return self.ask(bytes.fromhex(digits))

    def close(self) -> None:
        """Ends the reader: a card is no longer served."""
        if self.connection:
            self.connection.close()
        self.listener.close()
