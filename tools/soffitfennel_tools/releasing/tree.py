"""The tree that a release is made of: its files, its version, its commit and its time."""
from __future__ import annotations

import os
import re
import subprocess
from pathlib import Path

from .. import arguments

TOP = Path(__file__).resolve().parents[3]
MADE = {"out", "target", "__pycache__"}
VERSION = re.compile(r"\d+\.\d+\.\d+(-dev)?")


class Refused(Exception):
    """Why no release is made, and the exit status."""

    def __init__(self, why: str, status: int = 1):
        super().__init__(why)
        self.status = status


def tool(name: str) -> Path:
    """A tool of this tree, in tools/ or a folder below it."""
    for path in sorted(TOP.glob(f"tools/**/{name}"), key=lambda it: len(it.parts)):
        if path.is_file() and os.access(path, os.X_OK):
            return path
    raise Refused(f"there is no tool {name} in this tree")


def words(name: str) -> Path:
    """A file of a tool's words."""
    for path in sorted(TOP.glob(f"tools/**/words/{name}"), key=lambda it: len(it.parts)):
        return path
    raise Refused(f"there is no file {name} in this tree")


def version() -> str:
    """The version: a release's number, or that of the next release with -dev behind it."""
    found = arguments.version()
    if not VERSION.fullmatch(found):
        raise Refused(f"the version {found} is no number of a release")
    return found


def git(*given: str) -> str | None:
    """What git says; None where it fails, or this tree is no clone."""
    if not (TOP / ".git").exists():
        return None
    try:
        ran = subprocess.run(["git", "-C", str(TOP), *given], capture_output=True, text=True, check=False)
    except OSError:
        return None
    return ran.stdout if ran.returncode == 0 else None


def commit() -> str:
    """The commit; of an archive that git made, the one that git wrote into it."""
    if (found := git("rev-parse", "HEAD")) is not None:
        return found.strip() + (", and changes" if is_changed() else "")
    found = words("commit").read_text(encoding="utf-8").strip()
    return found if re.fullmatch(r"[0-9a-f]{40}", found) else "not known"


def is_changed() -> bool:
    """Whether the tree differs from its commit."""
    return bool(git("status", "--porcelain"))


def maker() -> str:
    """Who answers for the release: the author of its commit (SECURITY.md)."""
    found = git("log", "-1", "--format=%an <%ae>")
    return found.strip() if found else "Soffitfennel maintainers <maintainers@users.noreply.soffitfennel.example>"


def time() -> int:
    """The time that each file of the release has, in seconds: SOURCE_DATE_EPOCH, else that of the commit."""
    given = os.environ.get("SOURCE_DATE_EPOCH") or (git("log", "-1", "--format=%ct") or "").strip()
    if not re.fullmatch(r"\d{1,10}", given):
        raise Refused("SOURCE_DATE_EPOCH has to say the time in seconds, as this tree is no clone")
    return int(given)


def files(*parts: str) -> list[Path]:
    """The files of folders, or single files, of this tree: those that git knows, else all that are not made here."""
    listed = git("ls-files", "-z", "--", *parts)
    if listed is not None:
        found = [TOP / it for it in listed.split("\0") if it]
    else:
        found = [path for it in parts for path in ([TOP / it] if (TOP / it).is_file() else (TOP / it).rglob("*"))]
    kept = (it for it in found if it.is_file() and not MADE & set(it.relative_to(TOP).parts))
    return sorted(it for it in kept if it.suffix != ".pyc")
