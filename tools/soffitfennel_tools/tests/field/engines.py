"""The CCID driver's and GnuPG's ends of T=1 before tools/badcard, where their sources are: the table of docs/FIELD.md.

ENGINE_SOURCES names a folder with Debian's source packages, unpacked. Without it apt-get source fetches them once,
where apt has lines deb-src.
"""
from __future__ import annotations

import json
import os
import shutil
import subprocess
from collections import Counter
from dataclasses import dataclass
from pathlib import Path
from typing import Any

from ...misbehaving.faults import FAULTS
from ..library.checks import PCSC_HEADERS, SANITIZERS, WARNINGS
from .room import TOP, Room, run

HARNESSES = TOP / "tools" / "tests" / "engines"
PAGE = TOP / "docs" / "FIELD.md"
FETCH_SECONDS = 60
# so that a sweep ends in time on a busy machine
FAULTS_AT_ONCE = 9


@dataclass(frozen=True)
class Engine:
    """A source package, its name on the page, and what the harness FILE.c takes: folders, sources, empty headers."""

    package: str
    title: str
    file: str
    folders: list[str]
    sources: list[str]
    headers: list[str]


CCID = Engine("ccid", "CCID driver", "ccid", ["src", "src/openct"],
              [f"src/openct/{it}.c" for it in ("proto-t1", "buffer", "checksum")], ["config.h"])
GNUPG = Engine("gnupg2", "GnuPG", "gnupg", ["scd"], [], ["libusb.h"])


def column(runs: list[dict[str, Any]]) -> list[str]:
    """What the page says of an end: runs that are right, told, wrong where no reader can tell; faults that it takes,
    faults by which it carries a command out twice, and all others."""
    counts = Counter(it["outcome"] for it in runs if it["outcome"] in ("right", "told"))
    wrong = Counter(it["fault"] for it in runs if it["outcome"] == "a wrong answer")
    twice = Counter(it["fault"] for it in runs if it["outcome"] == "carried out 2 times")
    hidden = sum(number for fault, number in wrong.items() if not FAULTS[fault].can_tell)
    taken = {fault: number for fault, number in wrong.items() if FAULTS[fault].can_tell}
    others = sorted({it["outcome"] for it in runs} - {"right", "told", "a wrong answer", "carried out 2 times"})
    return [str(counts["right"]), str(counts["told"]), str(hidden), named(taken), named(twice), *others]


def named(found: dict[str, int]) -> str:
    """Faults with how often each is taken."""
    return ", ".join(f"`{fault}` {found[fault]}" for fault in FAULTS if fault in found) or "none"


def of_page(title: str) -> tuple[str, list[str]]:
    """The version of an end, and what the page says of it."""
    lines = PAGE.read_text(encoding="utf-8").split("\n| of 130 runs |")[1].splitlines()
    cells = next(line for line in lines if line.startswith(f"| {title}")).strip("| ").split(" | ")
    return cells[0].removeprefix(title).strip(), cells[1:]


class Engines(Room):
    """Reader's ends that others wrote."""

    def sources(self, engine: Engine) -> Path:
        """The folder of the unpacked sources, of the version that the page has."""
        kept = Path(os.environ.get("XDG_CACHE_HOME") or Path.home() / ".cache") / "soffitfennel" / "engines"
        folder = Path(os.environ.get("ENGINE_SOURCES") or kept)
        if "ENGINE_SOURCES" not in os.environ and not any(folder.glob(f"{engine.package}-*/")):
            self.fetch(engine, folder)
        version = of_page(engine.title)[0]
        found = folder / f"{engine.package}-{version}"
        if not found.is_dir():
            there = ", ".join(it.name for it in folder.glob(f"{engine.package}-*/")) or "none"
            self.skipTest(f"sources of {engine.package} {version} in {folder}: {there}")
        return found

    def fetch(self, engine: Engine, folder: Path) -> None:
        """Fetches the sources, where apt can; else says why it can't."""
        folder.mkdir(parents=True, exist_ok=True)
        command = ["apt-get", "-qq", "source", engine.package]
        try:
            came = subprocess.run(
                command, cwd=folder, capture_output=True, text=True, check=False, timeout=FETCH_SECONDS
            )
        except (OSError, subprocess.TimeoutExpired) as error:
            self.skipTest(f"no sources of {engine.package}: {error}")
        if came.returncode:
            why = came.stderr.strip().splitlines()[-1:] or ["it says nothing"]
            self.skipTest(f"no sources of {engine.package}: apt-get source: {why[0]}")

    def built(self, engine: Engine) -> Path:
        """The reader's end: our file with each warning an error, theirs as they are; both under sanitizers."""
        compiler = os.environ.get("CC", "cc")
        if not shutil.which(compiler):
            self.skipTest(f"no C compiler {compiler}")
        source = self.sources(engine)
        for name in engine.headers:
            self.file("", name)
        folders = [self.room, *(source / it for it in engine.folders), PCSC_HEADERS]
        words = [compiler, WARNINGS[0], *SANITIZERS, *(f"-isystem{it}" for it in folders)]
        objects = []
        for name in engine.sources:
            objects.append(self.room / f"{Path(name).stem}.o")
            self.compile(*words, "-w", "-c", source / name, "-o", objects[-1])
        made = self.room / engine.file
        self.compile(*words, *WARNINGS[1:], "-ffunction-sections", "-Wl,--gc-sections",
                     HARNESSES / f"{engine.file}.c", *objects, "-o", made)
        return made

    def compile(self, *words: object) -> None:
        """Runs the compiler, which says nothing."""
        came = run([str(it) for it in words])
        self.assertEqual((came.returncode, came.stderr), (0, ""))

    def compare_with_page(self, engine: Engine) -> None:
        """Each fault at each answer block: as the page says."""
        made, names, runs = self.built(engine), list(FAULTS), []
        for at in range(0, len(names), FAULTS_AT_ONCE):
            only = ",".join(names[at : at + FAULTS_AT_ONCE])
            came = self.run_tool("badcard", "--sweep", "--json", "--only", only, "--", made)
            self.assertEqual(came.stderr, "")
            runs += json.loads(came.stdout)
        self.assertEqual(column(runs), of_page(engine.title)[1])

    def test_ccid_driver(self) -> None:
        if not PCSC_HEADERS.is_dir():
            self.skipTest(f"no headers of PC/SC in {PCSC_HEADERS}")
        self.compare_with_page(CCID)

    def test_gnupg(self) -> None:
        self.compare_with_page(GNUPG)
