"""The reader's end of the library: over the card's blocks, over a line with faults, before a card that misbehaves."""
from __future__ import annotations

import json
import re
import shutil

from ...misbehaving.faults import FAULTS
from .checks import EXAMPLES, ICCID, PROGRAMS, SANITIZERS, TOP, Tests

# the calls of examples/c/bench.c that go by a reader's end instead
BY_READER = ("power_on", "power_off", "command", "block", "lose", "garble")
COMMANDS = 400
SEEDS = 3


def test_example(tests: Tests) -> None:
    """The example of docs/READER.md reads the ICCID."""
    program = tests.compile(EXAMPLES / "reader.c", "-O2", "-pedantic")
    tests.run("the example of a reader", program, wanted=f"9000\n{ICCID}")


def test_scripts(tests: Tests) -> None:
    """Rows and examples print what they print by the bench, by a reader's end over the card's blocks."""
    words = ["-O2", "-include", PROGRAMS / "by_reader.h", f"-I{PROGRAMS}"]
    renamed = [f"-Dsoffitfennel_{it}=by_reader_{it}" for it in BY_READER]
    calls = tests.room / "by_reader.o"
    include = f"-I{TOP / 'include'}"
    tests.run("the calls by a reader", "cc", "-std=gnu11", "-Wall", "-Wextra", "-Werror", "-O2", include, "-c",
              PROGRAMS / "by_reader.c", "-o", calls)
    bench = tests.compile(EXAMPLES / "bench.c", *words, *renamed, calls)
    given: dict[str, object] = {"BENCH_PROGRAM": bench}
    tests.run("all examples by a reader's end", TOP / "tools" / "dev" / "examples", env=given)
    rows = sorted((TOP / "rows").glob("*.rows"))
    tests.run("all rows by a reader's end", TOP / "bench", "-q", "--test", "--strict", *rows, env=given)


def counts_of(text: str) -> list[int]:
    """How many commands were done, resynchronised, lost, and had a bad answer; none of another text."""
    found = re.fullmatch(r"lossy_line: (\d+) done, (\d+) resynched, (\d+) lost, (\d+) bad\n", text)
    return [int(it) for it in found.groups()] if found else []


def test_lossy_line(tests: Tests) -> None:
    """Over a line that loses and garbles blocks each command runs at most once, under both sanitizers and valgrind."""
    program = tests.compile(PROGRAMS / "lossy_line.c", *SANITIZERS)
    for seed in range(1, 1 + SEEDS):
        ran = tests.call(program, COMMANDS, seed)
        counts = counts_of(ran.stdout)
        is_so = len(counts) == 4 and sum(counts) == COMMANDS and min(counts[:3]) > 0 and counts[3] == 0
        tests.holds(is_so, f"commands over a line with faults, seed {seed}", ran.stdout + ran.stderr)
    if not shutil.which("valgrind"):
        tests.skip("a reader's end under valgrind", "valgrind isn't installed")
        return
    plain = tests.compile(PROGRAMS / "lossy_line.c", "-O2", "-g")
    words = ["valgrind", "-q", "--error-exitcode=9", "--leak-check=full"]
    tests.run("a reader's end under valgrind", *words, plain, COMMANDS // 10, 1)


def swept(tests: Tests, *reader: object) -> list[dict[str, object]]:
    """What tools/badcard says of a reader's end, run by run; nothing where it could have done better."""
    ran = tests.call(TOP / "tools" / "badcard", "--sweep", "--json", *reader)
    tests.holds(ran.returncode == 0, "a reader's end takes no fault that it can tell", f"{ran.stdout}{ran.stderr}")
    runs: list[dict[str, object]] = json.loads(ran.stdout) if ran.returncode == 0 else []
    return runs


def test_bad_cards(tests: Tests) -> None:
    """Before each fault of tools/badcard the library does what the end of tools/serial does, by the same table."""
    program = tests.compile(PROGRAMS / "engine.c", *SANITIZERS)
    came, wanted = swept(tests, "--", program), swept(tests)
    tests.holds(len(came) == 5 * len(FAULTS), "runs before bad cards", str(len(came)))
    other = [it for it, so in zip(came, wanted) if it != so]
    tests.holds(came == wanted, "a reader's end does before bad cards what tools/serial does", str(other))


ALL = (test_example, test_scripts, test_lossy_line, test_bad_cards)
