"""Outputs of a tool: written whole at its end, and a message and a status of their own where they can't be."""
from __future__ import annotations

import os
import secrets
import signal
import sys
from contextlib import suppress
from pathlib import Path
from typing import NoReturn

# as the bench's own status for an output that can't be written
UNWRITABLE = 4


def write(path: Path, content: str | bytes) -> None:
    """Writes a file, whole or not at all; an error names it, also where the disk is full. A device or a pipe has got
    what it took."""
    data = content.encode("utf-8") if isinstance(content, str) else content
    try:
        if path.exists() and not path.is_file():
            path.write_bytes(data)
        else:
            put_in_place(Path(os.path.realpath(path)), data)
    except OSError as error:
        raise OSError(error.errno, error.strerror, str(path)) from error


def put_in_place(path: Path, data: bytes) -> None:
    """Writes a file under a name that nobody knows, and then gives it its own. One that is there keeps its owner, its
    group and its mode, and stays where it may not be written. Nobody may read the new one who may not read the old
    one."""
    fresh = path.with_name(f".output.{secrets.token_hex(8)}")
    try:
        old = path.stat() if path.exists() else None
        mode = old.st_mode & 0o600 if old else 0o666
        with open(os.open(fresh, os.O_WRONLY | os.O_CREAT | os.O_EXCL, mode), "wb") as file:
            if old:
                take_over(file.fileno(), old)
            file.write(data)
        if old:
            os.close(os.open(path, os.O_WRONLY))
        os.replace(fresh, path)
    finally:
        fresh.unlink(missing_ok=True)


def take_over(file: int, old: os.stat_result) -> None:
    """Gives a new file the owner, the group and the mode of an old one. Where it can't have the group, it may be read
    by those who may read the old one whatever their group is."""
    for owner in (old.st_uid, -1):
        with suppress(PermissionError):
            os.fchown(file, owner, old.st_gid)
            break
    mode = old.st_mode & 0o777
    if os.fstat(file).st_gid != old.st_gid:
        all_may = mode >> 3 & mode & 0o7
        mode = mode & 0o700 | all_may << 3 | all_may
    os.fchmod(file, mode)


def show(tool: str, text: str) -> None:
    """Prints an output. A reader that has gone, as head does, ends the tool without a word, with a shell's status for
    the signal of a pipe; what lies in temporary folders goes with it."""
    try:
        sys.stdout.write(text)
        sys.stdout.flush()
    except BrokenPipeError:
        # (what is still to be written has no reader, also at the end)
        os.dup2(os.open(os.devnull, os.O_WRONLY), sys.stdout.fileno())
        sys.exit(128 + signal.SIGPIPE)
    except OSError as error:
        unwritten(tool, error)


def unwritten(tool: str, error: OSError) -> NoReturn:
    """Ends a tool whose output can't be written, without a second try at what is still to be written."""
    # (of a copy the second file is the one that is written)
    file = error.filename2 or error.filename or "the output"
    print(f"{tool}: {file} can't be written: {error.strerror}", file=sys.stderr, flush=True)
    os._exit(UNWRITABLE)
