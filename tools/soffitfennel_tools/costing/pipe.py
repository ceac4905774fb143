"""Lines through a pair of pipes, one at a time, beside what cat does with the same lines in the same run."""
import os
import statistics
import subprocess
import time
from collections.abc import Callable, Iterator

from .kinds import FACTORY, READ, select

# Each program is asked so many lines at a time, in turn with cat, and so often.
LINES, ROUNDS = 500, 60
LINE = READ.encode() + b"\n"


class Piped:
    """A program that is held by its standard input and output."""

    def __init__(self, path: str):
        self.process = subprocess.Popen([path], stdin=subprocess.PIPE, stdout=subprocess.PIPE, bufsize=0)
        assert self.process.stdin and self.process.stdout
        self.input, self.output = self.process.stdin.fileno(), self.process.stdout.fileno()

    def ask(self, line: bytes) -> bytes:
        """Writes a line, and reads what comes of it."""
        os.write(self.input, line)
        return os.read(self.output, 1_024)

    def time(self) -> float:
        """The seconds that a round of lines takes."""
        begin = time.perf_counter()
        for _ in range(LINES):
            self.ask(LINE)
        return time.perf_counter() - begin

    def close(self) -> None:
        """Ends the program."""
        self.process.communicate()


def shares_of_cat(paths: dict[str, str], place: Callable[[int], None]) -> dict[str, tuple[float, float]]:
    """Of each program the seconds of a line, and the share of cat's rate, each the median of all rounds. A round asks
    cat and then the program, so that other load on the machine slows both."""
    cat = Piped("cat")
    asked = {name: Piped(path) for name, path in paths.items()}
    for program in [cat, *asked.values()]:
        place(program.process.pid)
    for program in asked.values():
        for line in ("on", select(FACTORY), READ):
            program.ask(line.encode() + b"\n")
    times: dict[str, list[tuple[float, float]]] = {name: [] for name in asked}
    for _ in range(ROUNDS):
        for name, program in asked.items():
            times[name].append((cat.time(), program.time()))
    for program in [cat, *asked.values()]:
        program.close()
    shares = {name: statistics.median(cats / own for cats, own in rounds) for name, rounds in times.items()}
    seconds = {name: statistics.median(own for _, own in rounds) / LINES for name, rounds in times.items()}
    return {name: (seconds[name], shares[name]) for name in asked}


def by_place(paths: dict[str, str]) -> Iterator[tuple[str, dict[str, tuple[float, float]]]]:
    """What comes where both ends are on one processor, where they are on two, and where the system places them."""
    places = sorted(os.sched_getaffinity(0))
    try:
        os.sched_setaffinity(0, places[:1])
        yield "on one processor", shares_of_cat(paths, lambda process: None)
        if len(places) > 1:
            yield "on two processors", shares_of_cat(paths, lambda process: os.sched_setaffinity(process, places[1:2]))
    finally:
        os.sched_setaffinity(0, places)
    yield "as the system places both ends", shares_of_cat(paths, lambda process: None)
