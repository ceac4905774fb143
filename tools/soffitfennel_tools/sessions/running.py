"""Runs a program with its own cards."""
from __future__ import annotations

import os
import re
import shutil
import signal
import struct
import subprocess
import tempfile
from collections.abc import Iterator
from contextlib import contextmanager
from dataclasses import dataclass, field
from pathlib import Path

from ..card_image.image import Unreadable, read_image
from ..card_image.tree import read
from ..programs import past_file_limits

from .building import NAME, TOP, Refused, built

MOST_CARDS = 4
# the signals that a session waits for: its program has ended, or the tool is to end
TAKEN = (signal.SIGCHLD, signal.SIGTERM, signal.SIGHUP)
OPENSC = TOP / "examples" / "cards" / "opensc.conf"
PREFIX = "SOFFITFENNEL_"
PINS = re.compile(r"[0-9A-Fa-f]{2}=[1-8](,[0-9A-Fa-f]{2}=[1-8])*")


@dataclass
class Settings:
    """What a session is to be."""

    cards: list[str] = field(default_factory=list)
    is_fresh: bool = False
    log: str | None = None
    cut: tuple[int, int] | None = None
    view: str = ""
    atr: str | None = None
    pins: str | None = None


@dataclass(frozen=True)
class Session:
    """A session that is prepared: its variables, and the file with its counters."""

    environment: dict[str, str]
    counters: Path

    def writes(self) -> int:
        """How many device writes its processes have made."""
        return int(struct.unpack("=II", self.counters.read_bytes())[0])

    def has_cut(self) -> bool:
        """Whether the power cut has come."""
        return bool(struct.unpack("=II", self.counters.read_bytes())[1])


def check_card(path: str) -> None:
    """Refuses what is no card's file before a program starts."""
    if os.path.islink(path):
        raise Refused(f"{path} is a link: name the file itself")
    if os.path.exists(path) and not os.path.isfile(path):
        raise Refused(f"{path} is no plain file")
    try:
        image, is_used = read_image(path)
    except Unreadable as why:
        raise Refused(f"{why}; tools/issue makes a card, and --fresh takes the factory's") from None
    if is_used:
        raise Refused(f"{path} is in use by another program; end that one first")
    if read(image).card is None:
        raise Refused(f"{path} holds no card: tools/card {path} says why")
    if not os.access(path, os.W_OK):
        raise Refused(f"{path} may not be written by you")


def make_log(path: str) -> None:
    """Makes the file of a session's record, private, where there is none."""
    try:
        file = os.open(path, os.O_WRONLY | os.O_CREAT | os.O_EXCL | os.O_NOFOLLOW, 0o600)
    except FileExistsError:
        raise Refused(f"{path} is there already and stays as it is: give --log another name") from None
    except OSError as why:
        raise Refused(f"{path} can't be written: {why.strerror}") from None
    with open(file, "w", encoding="ascii") as it:
        it.write("# case a recorded session\n")


@contextmanager
def prepared(settings: Settings, library: Path | None = None) -> Iterator[Session]:
    """A session with a private folder, which goes with it."""
    for it in settings.cards:
        check_card(it)
    place = library or built()
    room = Path(tempfile.mkdtemp(prefix="with-card-"))
    try:
        counters = room / "counters"
        counters.write_bytes(bytes(8))
        cards = [os.path.abspath(it) for it in settings.cards]
        if settings.is_fresh:
            cards.append(str(room / "card"))
            os.close(os.open(cards[-1], os.O_WRONLY | os.O_CREAT | os.O_EXCL, 0o600))
        if settings.log:
            make_log(settings.log)
        yield Session(environment(settings, cards, counters, place), counters)
    finally:
        shutil.rmtree(room, ignore_errors=True)


def environment(settings: Settings, cards: list[str], counters: Path, library: Path) -> dict[str, str]:
    """The variables of a session; those of one around it are gone."""
    found = {
        name: value for name, value in os.environ.items() if not re.match(rf"{PREFIX}(CARD_|FRESH|CUT|LOG|VIEW)", name)
    }
    paths = [str(library), *found.get("LD_LIBRARY_PATH", "").split(":")]
    found["LD_LIBRARY_PATH"] = ":".join(it for it in paths if it)
    given = {f"CARD_{number}": path for number, path in enumerate(cards)}
    given |= {"SESSION": str(counters), "PCSCLITE": str(library / NAME)}
    optional = {
        "FRESH": "1" if settings.is_fresh else None,
        "VIEW": settings.view,
        "ATR": settings.atr,
        "PINS": settings.pins,
    }
    optional["LOG"] = settings.log and os.path.abspath(settings.log)
    optional["CUT"] = settings.cut and f"{settings.cut[0]} {settings.cut[1]:04X}"
    given |= {name: value for name, value in optional.items() if value}
    # (OpenSC knows a card's driver by its answer to reset; a configuration of the user's own counts)
    found.setdefault("OPENSC_CONF", str(OPENSC))
    return found | {PREFIX + name: value for name, value in given.items()}


def run(command: list[str], session: Session) -> int:
    """The exit status of a program, as a shell tells it. A signal that would end the tool ends the program, and the
    tool with it."""
    # (taken by sigwait, so that none is lost while the program starts, or right before a wait)
    before = signal.pthread_sigmask(signal.SIG_BLOCK, TAKEN)

    def begin() -> None:
        # (a card that its file doesn't take is gone for the program, which goes on)
        past_file_limits()
        signal.pthread_sigmask(signal.SIG_SETMASK, before)

    try:
        process = subprocess.Popen(command, env=session.environment, preexec_fn=begin)
    except FileNotFoundError:
        raise Refused(f"there is no program {command[0]}") from None
    except OSError as why:
        raise Refused(f"{command[0]} can't be run: {why.strerror}") from None
    # (a terminal's Ctrl-C reaches the program too, which decides what it does)
    signal.signal(signal.SIGINT, signal.SIG_IGN)
    while (status := process.poll()) is None:
        if (number := signal.sigwait(TAKEN)) != signal.SIGCHLD:
            process.send_signal(number)
    return 128 - status if status < 0 else status
