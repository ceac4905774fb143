"""A private output stays private while it is written, also where the tool is killed, and the next one is written."""
from __future__ import annotations

import os
import signal
import subprocess
import sys
from pathlib import Path

from .checks import TOP, Checks
from .images import data_of, factory
from .watched import CONTENT

PROGRAM = "soffitfennel_tools.tests.card.watched"
MODES = (0o600, 0o640, 0o604, 0o666)
# the number of a user and a group that have nothing else here
OTHER = 54_321


def watched(out: Path, *words: str) -> tuple[int, set[tuple[int, int]]]:
    """Writes an output: the status, and the modes and groups of what lay beside it meanwhile."""
    environment = {**os.environ, "PYTHONPATH": str(TOP / "tools"), "PYTHONDONTWRITEBYTECODE": "1"}
    command = [sys.executable, "-m", PROGRAM, str(out), *words]
    ran = subprocess.run(command, env=environment, capture_output=True, text=True, check=False)
    found = [it.split() for it in ran.stdout.splitlines()]
    return ran.returncode, {(int(mode, 8), int(group)) for mode, group in found}


def of_modes(checks: Checks, folder: Path) -> None:
    """Nobody may read it meanwhile who may not read the old one."""
    out = folder / "out.svg"
    for mode in MODES:
        out.write_text("the old one", encoding="utf-8")
        out.chmod(mode)
        status, found = watched(out)
        what = f"an output over one of mode {mode:o}"
        checks.compare(f"{what}: status, and whether it was seen", (0, True), (status, bool(found)))
        checks.compare(f"{what}: wider modes meanwhile", set(), {f"{it:o}" for it, _ in found if it & ~mode})
        checks.compare(f"{what}: its mode and content", (mode, CONTENT), (out.stat().st_mode & 0o777, out.read_text()))
        checks.compare(f"{what}: files beside it", [out], [*folder.iterdir()])


def of_groups(checks: Checks, folder: Path) -> None:
    """One of another owner and group keeps these. Meanwhile only the other group may read it, and so may nobody at the
    end where it can't be given to that group."""
    out = folder / "out.svg"
    for words, ends in (((), (0o640, OTHER, OTHER)), (("alone",), (0o600, os.getuid(), os.getgid()))):
        out.write_text("the old one", encoding="utf-8")
        os.chown(out, OTHER, OTHER)
        out.chmod(0o640)
        status, found = watched(out, *words)
        what = f"an output of another group {words}"
        checks.compare(f"{what}: status, and whether it was seen", (0, True), (status, bool(found)))
        wider = {it for it in found if it[0] & (0o037 if it[1] == OTHER else 0o077)}
        checks.compare(f"{what}: who else may read it meanwhile", set(), wider)
        came = out.stat()
        checks.compare(f"{what}: at the end", ends, (came.st_mode & 0o777, came.st_uid, came.st_gid))
        out.unlink()


def of_kills(checks: Checks, folder: Path) -> None:
    """A kill leaves the old one as it was, and beside it a file that is as private. It hinders no later tool."""
    card, out = folder / "some.card", folder / "out.svg"
    card.write_bytes(data_of(factory()))
    out.write_text("the old one", encoding="utf-8")
    out.chmod(0o600)
    status, _ = watched(out, "stop")
    checks.compare("a killed tool: status and output", (-signal.SIGKILL, "the old one"), (status, out.read_text()))
    left = sorted({*folder.iterdir()} - {card, out})
    checks.compare("a killed tool leaves a private file", [0o600], [it.stat().st_mode & 0o777 for it in left])
    ran = subprocess.run(
        [TOP / "tools" / "card", "--pages", out, card], capture_output=True, text=True, check=False,
    )
    checks.compare("the next tool", (0, "", ""), (ran.returncode, ran.stdout, ran.stderr))
    came = (out.stat().st_mode & 0o777, out.read_bytes()[:4])
    checks.compare("its output", (0o600, b"<svg"), came)
    checks.compare("files beside it", sorted({card, out, *left}), sorted(folder.iterdir()))


def check(checks: Checks, folder: Path) -> None:
    """All of them."""
    for name, compare in (("modes", of_modes), ("groups", of_groups), ("killed", of_kills)):
        room = folder / f"outputs-{name}"
        room.mkdir()
        if compare is of_groups and os.getuid():
            checks.skip("outputs of another group: only root can make one")
        else:
            compare(checks, room)
