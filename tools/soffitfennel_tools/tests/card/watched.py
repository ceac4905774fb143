"""Writes an output, and prints who may read what lies beside it meanwhile; a program of the tests of outputs.

It looks before each call of Python that opens a file, or changes a mode or a name: between two of them no mode changes.
With "stop" it kills itself before the new output gets its name. With "alone" it may give no file another owner or
group, as most users may not.
"""
from __future__ import annotations

import os
import signal
import sys
from pathlib import Path
from typing import Any

from ...outputs import write

CALLS = ("open", "os.chmod", "os.chown", "os.rename", "os.remove")
CONTENT = "the new one"


def watch(path: Path, stops: bool) -> None:
    """Prints the modes and groups of other files in the folder of an output at each call from here on."""

    def look(call: str, arguments: tuple[Any, ...]) -> None:
        if call in CALLS:
            for name in os.listdir(path.parent):
                if name != path.name:
                    found = os.stat(path.parent / name)
                    print(f"{found.st_mode & 0o777:o} {found.st_gid}", flush=True)
        if stops and call == "os.rename":
            os.kill(os.getpid(), signal.SIGKILL)

    sys.addaudithook(look)


def refuse(fd: int, uid: int, gid: int) -> None:
    """What fchown does for a user who may not."""
    raise PermissionError(fd, uid, gid)


if __name__ == "__main__":
    os.umask(0)
    if sys.argv[2:] == ["alone"]:
        os.fchown = refuse
    watch(Path(sys.argv[1]), sys.argv[2:] == ["stop"])
    write(Path(sys.argv[1]), CONTENT)
