"""The toolchain takes the board of a port, with its functions of C named; the card's own crates name none."""
from __future__ import annotations

import os
import shutil
import subprocess
from pathlib import Path

from ...chips.module import ALLOWED, BOARD
from ...narrowing.building import TOP
from .building import Room

BELOW = "nvm_board"
WANTED = f"logic=proved functions=8 foreign={BOARD}::"


def compare(room: Room) -> None:
    """Proves the board, over the library of the crate below it where that is built here."""
    built, crate = TOP / "crates" / BELOW / "out", room.port / "crates" / BOARD
    if built.is_dir():
        shutil.copytree(built, room.port / "crates" / BELOW / "out")
    refused = checked(crate, {key: it for key, it in os.environ.items() if key != ALLOWED})
    room.checks.check(refused.returncode != 0, f"without {ALLOWED} the board is refused", refused.stdout)
    ran = checked(crate, {**os.environ, ALLOWED: BOARD})
    last = (ran.stdout.splitlines() or [""])[-1]
    is_so = ran.returncode == 0 and last.startswith(WANTED)
    room.checks.check(is_so, "the board of a port is proved", ran.stdout + ran.stderr)


def checked(crate: Path, environment: dict[str, str]) -> subprocess.CompletedProcess[str]:
    """A check of a crate."""
    words = ["rt", "check", "--jobs", "1"]
    return subprocess.run(words, cwd=crate, env=environment, capture_output=True, text=True, check=False)
