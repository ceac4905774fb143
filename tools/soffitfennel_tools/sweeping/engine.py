"""Runs the program that sweeps (crates/sweep_cli) in parts, and checks that the parts belong together."""
import json
import re
import subprocess
from collections.abc import Callable, Sequence
from hashlib import sha256
from multiprocessing.pool import ThreadPool
from pathlib import Path
from typing import Any, TextIO, TypeVar

from ..progress import Progress
from ..script_lines import fault

COMMAND, PROBE = "# command", "# probe"
# what a program of the bench says by its exit status alone
MEANINGS = {3: "the script can't be read", 4: "the output can't be written", 5: "there is too little memory"}
T = TypeVar("T")
R = TypeVar("R")
# a part of a sweep: what it is of, and its report
Part = dict[str, Any]
# what the parts of one sweep have in common
OF_SWEEP = ("script", "card", "parts")


class Refused(Exception):
    """Why an input can't be swept, for a person."""


def script_of(file: TextIO) -> str:
    """The script in a file. Where it is a test, empty lines stand for what it expects, so that lines keep their
    numbers."""
    return re.sub(r"^= [^\n]*", "", file.read(), flags=re.M)


def ran(script: str, *words: str, has_parts: bool = True) -> list[str]:
    """The lines that a program prints for a script, which has the three parts of a sweep or is any script."""
    try:
        # (Python ignores the signals of a pipe and of a file's limit, and so does the program)
        done = subprocess.run(words, input=script, capture_output=True, encoding="latin-1", restore_signals=False)
    except OSError as error:
        raise Refused(f"a run can't be started: {error.strerror}") from error
    if done.returncode == 0:
        return done.stdout.splitlines()
    meaning = MEANINGS.get(done.returncode, f"the program ended with status {done.returncode}")
    raise refusal((done.stderr.splitlines() or [meaning])[-1], script, has_parts)


def refusal(said: str, script: str, has_parts: bool = True) -> Refused:
    """Why a script is not swept, or not run, by what a program said, with the likely reason."""
    bad = re.fullmatch(r"error line (\d+)(: it is no line of a script)?", said)
    found = fault(script.split("\n")[int(bad[1]) - 1].encode("latin-1"), int(bad[1]), True) if bad else None
    why = [found] if found else []
    if not has_parts:
        return Refused(": ".join([said, *why]))
    # a comment that was meant to begin a part of the script
    why += [f"line {number} is '{line}'" for number, line in enumerate(script.splitlines(), 1)
            if line not in (COMMAND, PROBE) and re.fullmatch(r"#\s*(command|probe)\s*", line, re.IGNORECASE)]
    if COMMAND not in script.splitlines():
        why.append(f"tools/sweep --all sweeps each command of a script without '{COMMAND}'")
    return Refused(": ".join([said, *why]))


def side_by_side(jobs: int, what: str, work: Callable[[T], R], tasks: Sequence[T]) -> list[R]:
    """The results of tasks, in order; `jobs` tasks run at a time. A terminal shows the progress."""
    results: list[R] = []
    with ThreadPool(jobs) as pool, Progress("sweep", f"0 of {len(tasks)} {what}") as progress:
        for it in pool.imap(work, tasks):
            results.append(it)
            progress.show(f"{len(results)} of {len(tasks)} {what}")
    return results


def with_depth(script: str, depth: int | None) -> str:
    """A script that is swept so deep; None leaves it the depth that it has."""
    return script if depth is None else script.removesuffix("\n") + f"\n# depth {depth}"


def sweep_part(sweeper: str, depth: int | None, card: str | None, script: str, part: str) -> Part:
    """Part I/N of a sweep of the factory card, or of copies of the card in a file: what it is of, and its report."""
    whole = with_depth(script, depth)
    lines = ran(whole, sweeper, *(["--card", card] if card else []), part)
    # a file that changes between two parts gives them different sums
    summed = sha256(Path(card).read_bytes()).hexdigest() if card else ""
    number, of = map(int, part.split("/"))
    return {"script": whole, "card": summed, "parts": of, "part": number, "lines": [json.loads(it) for it in lines]}


def read_part(file: TextIO) -> Part:
    """The part in a file, with the file's name, whether it is whole, and the numbers that its sweep's parts have."""
    try:
        it = json.load(file)
        about = {"file": file.name, "is_whole": "writes" in it["lines"][-1], "numbers": range(1, it["parts"] + 1)}
        return {**{key: it[key] for key in (*OF_SWEEP, "part", "lines")}, **about}
    except (json.JSONDecodeError, IndexError, KeyError, TypeError) as why:
        raise Refused(f"{file.name} is not part of a sweep, or is cut short ({why})") from None


def read_parts(files: list[TextIO]) -> list[Part]:
    """The parts in files. They are of one sweep and whole, and none is missing or comes twice."""
    parts = [read_part(it) for it in files]
    first = parts[0]
    for it in parts:
        if any(it[key] != first[key] for key in OF_SWEEP):
            differ = "script, card, depth or number of parts differ"
            raise Refused(f"the parts are not of one sweep: {differ} between {first['file']} and {it['file']}")
    for number in first["numbers"]:
        found = [it for it in parts if it["part"] == number]
        if [it["is_whole"] for it in found] != [True]:
            why = "is missing" if not found else "comes twice" if len(found) > 1 else "is cut short"
            names = f": {', '.join(it['file'] for it in found)}" if found else ""
            raise Refused(f"part {number} of {first['parts']} {why}{names}")
    return parts
