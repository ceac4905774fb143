"""Mutants of tools and C code: a test must notice each.

Their edit files have a line `test:` with the command of that test, and paths from the top of the repository."""
from __future__ import annotations

import os
import re
import shlex
import shutil
import signal
import subprocess
import tempfile
import time
from collections.abc import Iterator
from concurrent.futures import ThreadPoolExecutor, as_completed
from dataclasses import dataclass
from pathlib import Path
from queue import Queue

from ..git_environment import without_git
from ..tests.checks import dies_with_parent

from .edits import Unfit, texts_of
from .trying import Verdict

# programs that tests run, and the words that make tools/program print their paths
PROGRAMS = {
    "BENCH_PROGRAM": (), "SWEEP_PROGRAM": ("--sweep",), "FLASH_PROGRAM": ("--flash",),
    "SOFFITFENNEL_ARCHIVE": ("--library",),
}
# seconds after which a test that a mutant holds up is ended
MOST_SECONDS = 600
COUNTS = re.compile(r"\b(\d+) passed, (\d+) failed")
Environment = dict[str, str]
# the words of a command, the first one a path
Test = tuple[str, ...]


@dataclass(frozen=True)
class Mutant:
    """An edit file of tools: its name, the command of its test, and the texts of the files that it changes."""

    name: str
    test: Test
    texts: dict[str, str]


@dataclass(frozen=True)
class Run:
    """What a run of a test came to."""

    is_whole: bool
    failed: int
    said: str
    seconds: float


def read_mutant(path: Path, top: Path) -> Mutant:
    """The mutant of an edit file, over the files of the repository."""
    found = re.search(r"^test: (.+)$", path.read_text(encoding="utf-8"), re.M)
    if not found:
        raise Unfit("it names no test")
    test = tuple(shlex.split(found[1]))
    if not os.access(top / test[0], os.X_OK):
        raise Unfit(f"there is no test {test[0]}")
    return Mutant(path.stem, test, texts_of(path, top))


def copy_tree(top: Path, copy: Path) -> None:
    """Copies the repository's files as they are now into a repository of their own."""
    listed = ["git", "ls-files", "-z", "--cached", "--others", "--exclude-standard"]
    listing = subprocess.run(listed, cwd=top, check=True, capture_output=True, text=True, env=without_git())
    names = listing.stdout.split("\0")
    for name in filter(None, names):
        if (top / name).exists():
            (copy / name).parent.mkdir(parents=True, exist_ok=True)
            shutil.copy2(top / name, copy / name, follow_symlinks=False)
    # (some tools ask git for the files and the commit)
    git = ["git", "-C", str(copy), "-c", "user.name=A", "-c", "user.email=a@b.example", "-c", "commit.gpgsign=false"]
    for words in (["init", "--quiet"], ["add", "--all"], ["commit", "--quiet", "--message", "The tree as it is"]):
        subprocess.run([*git, *words], check=True, env=without_git())


def environment_of(top: Path, room: Path) -> Environment:
    """The environment of the tests: it names copies of the unchanged tree's programs, so that no test builds one, and
    none is missing while another command builds them anew."""
    found = without_git()
    for name, words in PROGRAMS.items():
        ask = [str(top / "tools" / "program"), *words, "--quiet"]
        path = Path(subprocess.run(ask, check=True, stdout=subprocess.PIPE, text=True).stdout.strip())
        found[name] = str(shutil.copy2(path, room / path.name))
    return found


def run_test(copy: Path, test: Test, environment: Environment) -> Run:
    """Runs a test in a copy. What it started ends with it."""
    begun = time.monotonic()
    with tempfile.TemporaryFile("w+", encoding="utf-8", errors="replace") as log:
        with subprocess.Popen([str(copy / test[0]), *test[1:]], cwd=copy, env=environment, stdin=subprocess.DEVNULL,
                              stdout=log, stderr=log, start_new_session=True, preexec_fn=dies_with_parent) as process:
            try:
                process.wait(MOST_SECONDS)
            except subprocess.TimeoutExpired:
                pass
            end_group(process.pid)
        log.seek(0)
        return run_of(log.read(), time.monotonic() - begun)


def end_group(group: int) -> None:
    """Ends what is left of a group of processes."""
    try:
        os.killpg(group, signal.SIGKILL)
    except ProcessLookupError:
        pass


def run_of(said: str, seconds: float) -> Run:
    """What a test's lines come to: the last one has its counts, and one that begins with FAIL says what failed."""
    lines = said.splitlines()
    counts = COUNTS.search(lines[-1]) if lines else None
    told = next((line for line in lines if line.startswith("FAIL")), lines[-1] if lines else "it says nothing")
    return Run(bool(counts), int(counts[2]) if counts else 0, told[:160], seconds)


def try_mutant(copy: Path, mutant: Mutant, environment: Environment) -> Verdict:
    """Whether the test notices a mutant: it comes to its end, and counts a failure."""
    old = {path: (copy / path).read_bytes() for path in mutant.texts}
    for path, text in mutant.texts.items():
        (copy / path).write_text(text, encoding="utf-8")
    ran = run_test(copy, mutant.test, environment)
    for path, content in old.items():
        (copy / path).write_bytes(content)
    return Verdict(mutant.name, ran.failed > 0, f"{ran.said} ({ran.seconds:.0f} s)")


def try_test(copies: Queue[Path], test: Test, mutants: list[Mutant], environment: Environment) -> list[Verdict]:
    """What the mutants of one test come to, in a copy of the repository. The unchanged copy has to pass."""
    copy = copies.get()
    try:
        ran = run_test(copy, test, environment)
        if not ran.is_whole or ran.failed:
            why = f"not tried: the unchanged tree fails {shlex.join(test)}: {ran.said}"
            return [Verdict(it.name, False, why) for it in mutants]
        print(f"{shlex.join(test)}: passes unchanged, in {ran.seconds:.0f} s", flush=True)
        return [try_mutant(copy, it, environment) for it in mutants]
    finally:
        copies.put(copy)


def try_tests(top: Path, mutants: list[Mutant], jobs: int) -> Iterator[Verdict]:
    """What mutants come to, test by test, some side by side."""
    tests: dict[Test, list[Mutant]] = {}
    for it in mutants:
        tests.setdefault(it.test, []).append(it)
    copies = Queue[Path]()
    with tempfile.TemporaryDirectory() as name, ThreadPoolExecutor(jobs) as pool:
        room = Path(name)
        environment = environment_of(top, room)
        for number in range(jobs):
            copy_tree(top, room / str(number))
            copies.put(room / str(number))
        tried = [pool.submit(try_test, copies, test, those, environment) for test, those in tests.items()]
        for done in as_completed(tried):
            yield from done.result()
