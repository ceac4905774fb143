"""What the tests share: commands, a release that is made once, and what is read of it."""
from __future__ import annotations

import os
import subprocess
import tempfile
import unittest
from functools import cache
from pathlib import Path
from typing import NamedTuple

TOP = Path(__file__).resolve().parents[4]
RELEASE = TOP / "tools" / "release"
# READ BINARY of the factory card's ICCID, by docs/CARD.md
ICCID = "981032547698103254769000"
FIRST = f"atr 3B808131FE458B\n< 9000\n< {ICCID}\n"
# where a new user's commands are; the toolchain is elsewhere
PLAIN_PATH = "/usr/sbin:/usr/bin:/sbin:/bin"


def run(*words: object, env: dict[str, str] | None = None, text: str = "") -> subprocess.CompletedProcess[str]:
    """Runs a command with such an input, and with an environment of its own where one is given."""
    command = [str(it) for it in words]
    return subprocess.run(command, capture_output=True, text=True, check=False, env=env, input=text)


def room_of(test: unittest.TestCase) -> Path:
    """A folder that goes with the test."""
    room = tempfile.TemporaryDirectory()
    test.addCleanup(room.cleanup)
    return Path(room.name)


class Made(NamedTuple):
    """Two releases of this tree, made one after the other, and whether they are proved; or why there are none."""

    first: Path
    second: Path
    is_proved: bool
    fault: str
    room: tempfile.TemporaryDirectory[str]


@cache
def made() -> Made:
    """The releases, made once: proved ones where the tree is proved."""
    room = tempfile.TemporaryDirectory(prefix="test-release-")
    first, second = Path(room.name) / "first", Path(room.name) / "second"
    came = run(RELEASE, first)
    words = ["--unproved"] if came.returncode else []
    if words:
        print(f"skipped: a proved release: {came.stderr.strip()}", flush=True)
        came = run(RELEASE, *words, first)
    if not came.returncode:
        # (another user's habits, and another zone)
        habits = ["sh", "-c", 'umask 077; cd /; exec "$0" "$@"', RELEASE, *words, second]
        came = run(*habits, env={**os.environ, "TZ": "Asia/Tokyo", "LC_ALL": "C"})
    return Made(first, second, not words, came.stderr.strip() if came.returncode else "", room)


def releases() -> Made:
    """The releases. A machine that lacks what they need skips the test."""
    found = made()
    if "a release needs Debian's" in found.fault:
        raise unittest.SkipTest(found.fault)
    if found.fault:
        raise AssertionError(found.fault)
    return found


def one(pattern: str) -> Path:
    """The file of the release whose name fits a pattern."""
    (found,) = releases().first.glob(pattern)
    return found


def clean(path: str, **more: str) -> dict[str, str]:
    """An environment without the toolchain and without given programs."""
    return {"PATH": path, "HOME": os.environ.get("HOME", "/nonexistent"), "LC_ALL": "C.UTF-8", **more}
