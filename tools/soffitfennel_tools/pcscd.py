"""Debian's PC/SC service with the virtual reader vpcd, for tests: one of their own, which is ended with them.

A test that calls `isolate` first has it in a mount and a network namespace of its own, so that another service on the
machine neither sees it nor is in its way."""
from __future__ import annotations

import fcntl
import os
import shutil
import socket
import struct
import subprocess
import sys
import tempfile
import time
from collections.abc import Callable
from pathlib import Path

TOOLS = Path(__file__).resolve().parent.parent
DRIVER = Path("/etc/reader.conf.d/vpcd")
READER = "Virtual PCD 00 00"
PORT = 35963
# where a service listens for its clients
SOCKET = Path("/run/pcscd/pcscd.comm")
# set where the namespaces are a test's own
ISOLATED = "SOFFITFENNEL_ISOLATED"
IN_NAMESPACES = ("unshare", "--mount", "--net", "--")
OWN_FOLDER = 'mkdir -p /run/pcscd && mount -t tmpfs tmpfs /run/pcscd && exec "$@"'
SIOCSIFFLAGS, IFF_UP = 0x8914, 1
# the python3 that has pyscard
PYTHON = "/usr/bin/python3"
PATIENCE = 60


def missing() -> str | None:
    """The first of Debian's packages that isn't there, or why the service can't be started."""
    pyscard = subprocess.run([PYTHON, "-c", "import smartcard.scard"], stderr=subprocess.DEVNULL, check=False)
    for package, is_there in (
        ("pcscd", shutil.which("pcscd", path="/usr/sbin:/usr/bin")),
        ("vsmartcard-vpcd", DRIVER.exists()),
        ("opensc", shutil.which("opensc-tool")),
        ("pcsc-tools", shutil.which("scriptor")),
        ("python3-pyscard", pyscard.returncode == 0),
    ):
        if not is_there:
            return f"{package} isn't installed"
    return None if os.geteuid() == 0 else "root alone starts a PC/SC service"


def isolate() -> None:
    """Runs the test anew in namespaces of its own, where the system allows it."""
    if os.environ.get(ISOLATED):
        raise_loopback()
    elif os.geteuid() == 0 and subprocess.run([*IN_NAMESPACES, "true"], stderr=subprocess.DEVNULL).returncode == 0:
        os.environ[ISOLATED] = "1"
        command = [*IN_NAMESPACES, "sh", "-c", OWN_FOLDER, "sh", sys.executable, *sys.orig_argv[1:]]
        sys.stdout.flush()
        os.execvp(command[0], command)


def raise_loopback() -> None:
    """Switches on the loopback device of a new network namespace."""
    with socket.socket(socket.AF_INET, socket.SOCK_DGRAM) as any_socket:
        fcntl.ioctl(any_socket, SIOCSIFFLAGS, struct.pack("16sh22x", b"lo", IFF_UP))


class InTheWay(Exception):
    """Another service is in the way of a test's own."""


def is_listening() -> bool:
    """Whether a program listens where vpcd waits for a card."""
    with open("/proc/net/tcp", encoding="ascii") as table:
        return any(line.split()[1].endswith(f":{PORT:04X}") and line.split()[3] == "0A" for line in table)


def wait_for(holds: Callable[[], bool], what: str) -> None:
    """Waits until it holds."""
    end = time.monotonic() + PATIENCE
    while not holds():
        if time.monotonic() > end:
            raise TimeoutError(what)
        time.sleep(0.05)


def ended(process: subprocess.Popen[bytes]) -> bool:
    """Asks a process to end; whether it does. One that doesn't is killed."""
    process.terminate()
    try:
        process.wait(PATIENCE)
    except subprocess.TimeoutExpired:
        process.kill()
        process.wait()
        return False
    return True


def look_around() -> None:
    """Looks whether another service is in the way."""
    # (a socket without a service is left where one was killed)
    with socket.socket(socket.AF_UNIX, socket.SOCK_STREAM) as client:
        is_served = client.connect_ex(str(SOCKET)) == 0
    if is_served or is_listening():
        what = f"it serves {SOCKET}" if is_served else f"a program listens on port {PORT}"
        raise InTheWay(f"another PC/SC service is in the way: {what}; end it, as by systemctl stop pcscd.socket pcscd")


class Service:
    """The service, for as long as it is needed. Its one reader is vpcd's."""

    def __enter__(self) -> Service:
        look_around()
        self.readers = tempfile.TemporaryDirectory()
        shutil.copy(DRIVER, self.readers.name)
        words = ["/usr/sbin/pcscd", "--foreground", "--config", self.readers.name]
        self.process = subprocess.Popen(words, stdout=subprocess.DEVNULL, stderr=subprocess.DEVNULL)
        try:
            wait_for(is_listening, "pcscd doesn't begin to listen")
        except TimeoutError:
            self.__exit__()
            raise
        return self

    def __exit__(self, *_: object) -> None:
        ended(self.process)
        self.readers.cleanup()


class Card:
    """A card in the reader, by the bridge, for as long as it is needed."""

    def __init__(self, *words: object):
        self.words = words

    def __enter__(self) -> Card:
        # (a file, for a pipe that nobody reads would fill)
        self.errors = tempfile.TemporaryFile()
        self.bridge = subprocess.Popen([sys.executable, TOOLS / "pcsc", *map(str, self.words)], stderr=self.errors)
        try:
            wait_for(has_card, "no card comes into the reader")
        except TimeoutError:
            self.__exit__()
            raise
        return self

    def __exit__(self, *_: object) -> None:
        if not ended(self.bridge):
            raise TimeoutError("the bridge doesn't end")
        try:
            wait_for(lambda: not has_card(), "the card stays in the reader")
        except TimeoutError:
            pass

    def log(self) -> list[str]:
        """The lines that the bridge has written to standard error so far."""
        self.errors.seek(0)
        return self.errors.read().decode("latin-1").splitlines()


def has_card() -> bool:
    """Whether a client sees a card in the first reader."""
    ran = subprocess.run(["opensc-tool", "-r", READER, "-a"], capture_output=True, check=False)
    return ran.returncode == 0 and bool(ran.stdout.strip())
