"""A disk that is soon full, for tests of what programs do without room."""
from __future__ import annotations

import os
import shutil
import subprocess
import tempfile
from collections.abc import Iterator
from contextlib import contextmanager
from pathlib import Path

# why a test without such a disk is skipped
NO_DISK = "root alone mounts a disk"


@contextmanager
def small_disk(kibibytes: int) -> Iterator[Path | None]:
    """The folder of a file system of this size, which goes with the test; None where this user can't mount one."""
    with tempfile.TemporaryDirectory(prefix="small-disk-") as folder:
        mount = ["mount", "-t", "tmpfs", "-o", f"size={kibibytes}k,mode=700", "tmpfs", folder]
        is_mounted = os.geteuid() == 0 and bool(shutil.which("mount"))
        is_mounted = is_mounted and subprocess.run(mount, stderr=subprocess.DEVNULL, check=False).returncode == 0
        try:
            yield Path(folder) if is_mounted else None
        finally:
            if is_mounted:
                subprocess.run(["umount", "--lazy", folder], check=True)


def fill(folder: Path) -> Path:
    """A file that takes all the room that its disk has left."""
    path = folder / "filler"
    with open(path, "wb", buffering=0) as file:
        try:
            while file.write(bytes(4096)) == 4096:
                pass
        except OSError:
            return path
    return path


def left(folder: Path) -> dict[str, bytes]:
    """The files of a folder, hidden ones too."""
    return {it.name: it.read_bytes() for it in folder.iterdir() if it.is_file()}
