"""Files that hold secrets: private, made whole or not at all, and no link is followed."""
from __future__ import annotations

import fcntl
import os
import secrets
import stat
from collections.abc import Iterator
from contextlib import contextmanager
from pathlib import Path


class Refused(Exception):
    """Why a file isn't written, or a card isn't taken."""


@contextmanager
def replaceable(path: Path, may_replace: bool) -> Iterator[None]:
    """Holds the lock of a file that is there, and refuses one that no card's file is."""
    try:
        told = os.lstat(path)
    except FileNotFoundError:
        yield
        return
    if not may_replace:
        raise Refused(f"{path} is there already and stays as it is; --replace puts the new file in its place")
    if not stat.S_ISREG(told.st_mode):
        raise Refused(f"{path} is no plain file and stays as it is")
    file = os.open(path, os.O_RDONLY | os.O_NOFOLLOW | os.O_NONBLOCK | os.O_CLOEXEC)
    try:
        fcntl.flock(file, fcntl.LOCK_EX | fcntl.LOCK_NB)
        yield
    except BlockingIOError:
        raise Refused(f"{path} is in use by another program and stays as it is") from None
    finally:
        os.close(file)


def store(path: Path, data: bytes, may_replace: bool = False) -> None:
    """Writes a private file under its name: all of it, or nothing."""
    try:
        with replaceable(path, may_replace):
            put_in_place(path, data, may_replace)
    except FileExistsError:
        raise Refused(f"{path} is there already and stays as it is; --replace puts the new file in its place") from None
    except OSError as why:
        raise Refused(f"{path} can't be written: {why.strerror}") from None


def put_in_place(path: Path, data: bytes, may_replace: bool) -> None:
    """Writes a file under a name that nobody knows, and then gives it its own."""
    fresh = path.parent / f".{path.name[:64]}.{secrets.token_hex(8)}"
    file = os.open(fresh, os.O_WRONLY | os.O_CREAT | os.O_EXCL | os.O_NOFOLLOW | os.O_CLOEXEC, 0o600)
    try:
        with open(file, "wb") as it:
            it.write(data)
            it.flush()
            os.fsync(it.fileno())
        if may_replace:
            os.rename(fresh, path)
        else:
            # (unlike a rename, it never takes the place of a file that has appeared meanwhile)
            os.link(fresh, path, follow_symlinks=False)
    finally:
        if os.path.lexists(fresh):
            os.unlink(fresh)
    folder = os.open(path.parent, os.O_RDONLY | os.O_DIRECTORY | os.O_CLOEXEC)
    try:
        os.fsync(folder)
    finally:
        os.close(folder)
