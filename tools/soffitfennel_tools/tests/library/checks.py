"""What the tests of the library share: counts, commands, and C programs over the library."""
from __future__ import annotations

import os
import shutil
import subprocess
from dataclasses import dataclass
from functools import cached_property
from pathlib import Path

TOP = Path(__file__).resolve().parent.parent.parent.parent.parent
PROGRAMS, EXAMPLES = TOP / "tools" / "tests" / "library_programs", TOP / "examples" / "c"
HEADER = TOP / "include" / "soffitfennel.h"
PCSC_HEADERS = Path("/usr/include/PCSC")
WARNINGS = ["-std=gnu11", "-Wall", "-Wextra", "-Werror"]
SANITIZERS = ["-g", "-O1", "-fsanitize=address,undefined", "-fno-sanitize-recover=all"]
NO_PROGRAM = 127
AARCH64 = "aarch64-unknown-linux-gnu"
# ISO/IEC 7816-4, 11.2.3: READ BINARY of the ICCID that docs/CARD.md lists
ICCID = "981032547698103254769000\n"
# folders in which make leaves what it builds, and the one that they read
BUILT_IN = ("reader", "examples/firmware", "include")


@dataclass(frozen=True)
class Sizes:
    """How much of each test is run."""

    calls: int
    kills: int
    firmware_kills: int


class Tests:
    """What passed, what did not, and what this machine can't run."""

    def __init__(self, library: Path, room: Path, sizes: Sizes):
        self.library, self.room, self.sizes = library, room, sizes
        self.passed = self.failed = self.skipped = 0

    @cached_property
    def tree(self) -> Path:
        """A copy of the folders that make builds in: other tests may read the tree's own meanwhile."""
        copy = self.room / "tree"
        for name in BUILT_IN:
            shutil.copytree(TOP / name, copy / name, ignore=shutil.ignore_patterns("*.so", "*.elf", "*.map", "out"))
        return copy

    def holds(self, is_so: bool, what: str, came: str = "") -> bool:
        """Counts a test."""
        self.passed, self.failed = self.passed + is_so, self.failed + (not is_so)
        if not is_so:
            print(f"FAIL {what}\n{came[-2000:]}", flush=True)
        return is_so

    def skip(self, what: str, why: str) -> None:
        """Counts a test that this machine can't run."""
        self.skipped += 1
        print(f"skipped {what}: {why}", flush=True)

    def call(self, *words: object, env: dict[str, object] | None = None) -> subprocess.CompletedProcess[str]:
        """Runs a command."""
        given = {**os.environ, **{name: str(value) for name, value in (env or {}).items()}}
        command = [str(it) for it in words]
        try:
            return subprocess.run(
                command, env=given, text=True, capture_output=True, stdin=subprocess.DEVNULL, check=False
            )
        except OSError as error:
            # (a program that didn't compile)
            return subprocess.CompletedProcess(command, NO_PROGRAM, "", f"{error}\n")

    def run(self, what: str, *words: object, wanted: str | None = None, env: dict[str, object] | None = None) -> bool:
        """Runs a command, which ends with status 0, and prints what is wanted."""
        ran = self.call(*words, env=env)
        is_so = ran.returncode == 0 and (wanted is None or ran.stdout == wanted)
        return self.holds(is_so, what, f"status {ran.returncode}\n{ran.stdout}{ran.stderr}")

    def refuses(self, what: str, why: str, *words: object, env: dict[str, object] | None = None) -> None:
        """Runs a command that fails, and says why: in one line, but for make's own last one."""
        ran = self.call(*words, env=env)
        lines = [it for it in ran.stderr.splitlines() if not it.startswith("make")]
        is_so = ran.returncode != 0 and len(lines) == 1 and why in lines[0]
        self.holds(is_so, what, f"status {ran.returncode}\n{ran.stdout}{ran.stderr}")

    def compile(self, source: Path, *words: object, compiler: str | None = None) -> Path:
        """A program of a C file and the library."""
        out = self.room / source.stem
        more = [f"-I{TOP / 'include'}", *words, source, self.library / "libsoffitfennel.a"]
        self.run(f"{source.name} compiles", compiler or os.environ.get("CC", "cc"), *WARNINGS, *more, "-o", out)
        return out


def library_folder(variable: str, folder: Path, target: str | None = None) -> Path | None:
    """The folder that a variable names, or a new one with the library, or None where it can't be built."""
    if named := os.environ.get(variable):
        return Path(named).resolve()
    words = [str(TOP / "tools" / "library"), str(folder), *(["--target", target] if target else [])]
    ran = subprocess.run(words, stdout=subprocess.DEVNULL, check=False)
    return None if ran.returncode else folder
