"""The instructions of a program on a script, as valgrind's callgrind counts them."""
import os
import re
import tempfile
from collections.abc import Iterable
from functools import cache
from pathlib import Path
from subprocess import DEVNULL, PIPE, run
from typing import NamedTuple

from .kinds import Kind

WORDS = ["valgrind", "--tool=callgrind", "--compress-strings=no", "--compress-pos=no"]
# no first call of a function of the C library looks for it
BOUND = {**os.environ, "LD_BIND_NOW": "1"}


class Uncounted(Exception):
    """Valgrind counts nothing."""


class Counts(NamedTuple):
    """The instructions of a run or a line: all of them, those in the program's own functions, and those in memset."""

    all: int
    own: int
    blanking: int


def by_owner(profile: Iterable[str], program: str) -> tuple[int, int]:
    """The instructions in a program's own functions, and in the C library's memset, by callgrind's file."""
    own, blanking, is_own, is_blanking, is_call = 0, 0, False, False, False
    for line in profile:
        if line.startswith("ob="):
            is_own = line[3:].rstrip("\n") == program
        elif line.startswith("fn="):
            is_blanking = "memset" in line
        elif line.startswith("calls="):
            # (the cost in the next line is that of the function which is called)
            is_call = True
        elif line[0].isdigit():
            steps = 0 if is_call else int(line.split()[-1])
            own += steps if is_own else 0
            blanking += steps if is_blanking else 0
            is_call = False
    return own, blanking


@cache
def count(program: str, script: str, *words: str) -> Counts:
    """The instructions of a program on a script, with these words behind its name. Kinds of line with the same lines
    before them share a script."""
    with tempfile.TemporaryDirectory() as room:
        profile, lines = Path(room, "profile"), Path(room, "script")
        lines.write_text(script, encoding="utf-8")
        # (of a file the program reads the same parts each time; of a pipe it may not)
        with lines.open() as given:
            command = [*WORDS, f"--callgrind-out-file={profile}", program, *words]
            ran = run(command, stdin=given, stdout=DEVNULL, stderr=PIPE, text=True, env=BOUND)
        found = re.search(r"Collected : (\d+)", ran.stderr)
        if not found:
            raise Uncounted("valgrind counts nothing: " + ran.stderr.strip().split("\n")[-1])
        with profile.open(encoding="utf-8", errors="replace") as it:
            return Counts(int(found[1]), *by_owner(it, os.path.realpath(program)))


def each(none: Counts, many: Counts, more: int) -> Counts:
    """The instructions of each of the lines or calls that a run has more."""
    return Counts(*[round((most - least) / more) for least, most in zip(none, many)])


def cost(program: str, kind: Kind, pages: int | None = None) -> Counts:
    """The instructions of a program for one line of a kind; on a new card of so many pages, if `pages` is given."""
    with tempfile.TemporaryDirectory() as room:

        def counted(lines: int) -> Counts:
            card = ["--card", f"{room}/{lines}", "--pages", str(pages)] if pages else []
            return count(program, kind.script(lines), *card)

        return each(counted(0), counted(kind.many), kind.more)
