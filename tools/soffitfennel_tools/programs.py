"""The programs of the repository: the bench, the one that sweeps, and the bench with a flash."""
from __future__ import annotations

import os
import signal
import subprocess
import sys
from functools import cache
from pathlib import Path

# the variables that name a given program, by the option of tools/program
NAMED = (("--sweep", "SWEEP_PROGRAM"), ("--flash", "FLASH_PROGRAM"))


@cache
def program(*options: str, given: str | None = None) -> str:
    """The path that tools/program prints: of the given program, or of the repository's, which is built if there is
    none. If it fails, it says why, and the tool ends as for a bad command line.

    Later processes don't learn that it is the given one: a wrapper would take itself for it."""
    named = next((name for option, name in NAMED if option in options), "BENCH_PROGRAM")
    environment = {**os.environ, **({named: given} if given else {})}
    words: list[str | Path] = [Path(__file__).resolve().parent.parent / "program", *options]
    done = subprocess.run(words, stdout=subprocess.PIPE, text=True, check=False, env=environment)
    if done.returncode:
        sys.exit(2)
    os.environ.pop(named, None)
    return done.stdout.strip()


def past_file_limits() -> None:
    """For a process that is being started: a write past a limit of the file's size fails, and no signal ends it."""
    signal.signal(signal.SIGXFSZ, signal.SIG_IGN)
