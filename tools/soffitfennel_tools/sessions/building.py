"""The libpcsclite with the card inside (reader/pcsclite): built once, and kept by the content of its sources."""
from __future__ import annotations

import hashlib
import os
import shutil
import subprocess
import sys
import tempfile
import time
from contextlib import suppress
from pathlib import Path

from ..caches import by_age

TOP = Path(__file__).resolve().parent.parent.parent.parent
SOURCES = TOP / "reader" / "pcsclite"
INSTALLED = TOP / "programs"
NAME = "libpcsclite.so.1"
# how many libraries are kept, and the seconds for which each is: a session may run over it
MOST_KEPT, IN_USE = 4, 24 * 3600
PACKAGES = "apt-get install gcc libc6-dev make libpcsclite-dev"


class Refused(Exception):
    """Why no session begins."""


def library() -> tuple[Path, list[Path]]:
    """The folder that tools/library filled, or None where it is to be filled; and what it is made of."""
    if given := os.environ.get("SOFFITFENNEL_LIB"):
        if not (Path(given) / "libsoffitfennel.a").is_file():
            raise Refused(f"SOFFITFENNEL_LIB={given}: tools/library hasn't filled this folder")
        return Path(given), [Path(given) / "libsoffitfennel.a"]
    words = [str(TOP / "tools" / "program"), "--library", "--quiet"]
    ran = subprocess.run(words, stdout=subprocess.PIPE, text=True, check=False)
    if ran.returncode:
        raise Refused("the library for C isn't built, and can't be: tools/library says why")
    return Path(), [Path(ran.stdout.strip()), *sorted((TOP / "library").glob("*.[ch]")), TOP / "tools" / "library"]


def sum_of(paths: list[Path]) -> str:
    """A name for the content of files."""
    found = hashlib.sha256(os.environ.get("CC", "cc").encode("utf-8"))
    found.update(os.environ.get("CFLAGS", "").encode("utf-8"))
    for path in paths:
        found.update(path.read_bytes() + b"\0")
    return found.hexdigest()[:32]


def folder() -> Path:
    """The folder that keeps what is built: private to its owner."""
    home = os.environ.get("XDG_CACHE_HOME") or os.path.join(os.environ.get("HOME") or "/nonexistent", ".cache")
    for place in (Path(home), TOP / "out"):
        kept = place / "soffitfennel" / "pcsclite"
        try:
            kept.mkdir(mode=0o700, parents=True, exist_ok=True)
        except OSError:
            continue
        # (a library of another user is none that we run)
        if kept.stat().st_uid == os.geteuid() and not kept.stat().st_mode & 0o022 and os.access(kept, os.W_OK):
            return kept
    raise Refused("no folder can keep what is built: set XDG_CACHE_HOME to one that is yours alone")


def need_compiler() -> None:
    """Refuses a machine without a compiler or headers."""
    if not shutil.which(os.environ.get("CC", "cc")) or not shutil.which("make"):
        raise Refused(f"a C compiler and make are needed once: {PACKAGES}")
    if not Path("/usr/include/PCSC/winscard.h").is_file() and not os.environ.get("PCSC_CFLAGS"):
        raise Refused(f"the headers of PC/SC are needed once: {PACKAGES}")


def run(*words: object) -> None:
    """Runs a command, and shows what it says only where it fails."""
    command = [str(it) for it in words]
    ran = subprocess.run(command, stdout=subprocess.PIPE, stderr=subprocess.STDOUT, text=True, check=False)
    if ran.returncode:
        sys.stderr.write(ran.stdout)
        raise Refused(f"{' '.join(command[:3])} ..: status {ran.returncode}")


def built() -> Path:
    """The folder with the library; it is built where there is none. An installation has it."""
    if (INSTALLED / NAME).is_file():
        return INSTALLED
    filled, parts = library()
    sources = sorted(it for it in SOURCES.iterdir() if it.suffix in (".c", ".h", ".map") or it.name == "Makefile")
    kept = folder()
    place = kept / sum_of([*sources, TOP / "include" / "soffitfennel.h", *parts])
    # (what is used is young before another run may drop it)
    with suppress(FileNotFoundError):
        os.utime(place)
    if (place / NAME).is_file():
        return place
    need_compiler()
    print("with-card: building a libpcsclite with the card inside, some seconds ..", file=sys.stderr, flush=True)
    with tempfile.TemporaryDirectory(dir=kept) as room:
        if filled == Path():
            filled = Path(room) / "library"
            run(TOP / "tools" / "library", filled)
        run("make", "-s", "-C", SOURCES, f"LIBRARY={filled}", f"OUT={room}/made")
        try:
            os.rename(f"{room}/made", place)
        except OSError as why:
            # (another run was faster)
            if not (place / NAME).is_file():
                raise Refused(f"{place} can't be written: {why.strerror}") from None
    drop_old(kept)
    return place


def drop_old(kept: Path) -> None:
    """Drops all but the libraries that were used last, or within a day."""
    for it in by_age(it for it in kept.iterdir() if len(it.name) == 32)[:-MOST_KEPT]:
        with suppress(FileNotFoundError):
            if it.stat().st_mtime < time.time() - IN_USE:
                shutil.rmtree(it, ignore_errors=True)
