"""Builds what a release holds, and says whether it is what was proved."""
from __future__ import annotations

import hashlib
import os
import shutil
import subprocess
from pathlib import Path
from typing import NamedTuple

from ..outputs import UNWRITABLE
from .tree import TOP, Refused, git, is_changed, tool, words

# the variables that would put another program into a release
OTHERS = (
    "BENCH_PROGRAM", "SWEEP_PROGRAM", "FLASH_PROGRAM", "SOFFITFENNEL_ARCHIVE", "SOFFITFENNEL_LIB", "SOFFITFENNEL_SO",
)
# how Debian hardens what it compiles
HARD = ["CFLAGS=-O2 -fstack-protector-strong -D_FORTIFY_SOURCE=2", "LDFLAGS=-Wl,-z,relro,-z,now"]
PCSC = Path("/usr/include/PCSC/ifdhandler.h")
# what is proved: the option of tools/program, and what its sums in tools/words/proved.sum begin with
PROVED = {
    "bench_cli": ("", ""), "sweep_cli": ("--sweep", "sweep "), "flash_cli": ("--flash", "flash "),
    "libsoffitfennel.a": ("--library", "library "),
}


class Built(NamedTuple):
    """The built parts: three programs, the folders of library and page, the reader driver, and the libpcsclite."""

    bench: Path
    sweep: Path
    flash: Path
    library: Path
    page: Path
    driver: Path
    pcsclite: Path


def run(*given: object, folder: Path | None = None) -> str:
    """The last line that a command prints. What it says goes to standard error where it fails."""
    command = [str(it) for it in given if it != ""]
    environment = {name: it for name, it in os.environ.items() if name not in OTHERS}
    try:
        ran = subprocess.run(command, cwd=folder, env=environment, capture_output=True, text=True, check=False)
    except OSError as error:
        raise Refused(f"{command[0]} can't be run: {error.strerror}") from None
    if ran.returncode:
        last = (ran.stderr.strip() or ran.stdout.strip() or "it says nothing").splitlines()[-1]
        # (of a tool of this tree; another program means something else by this status)
        is_unwritten = ran.returncode == UNWRITABLE and TOP in Path(command[0]).parents
        why = f"{Path(command[0]).name} ended with status {ran.returncode}: {last}"
        raise Refused(why, UNWRITABLE if is_unwritten else 1)
    return (ran.stdout.strip().splitlines() or [""])[-1]


def need(names: dict[str, str]) -> None:
    """Refuses a machine without these commands, each of a package of Debian."""
    missing = sorted({package for name, package in names.items() if not shutil.which(name)})
    if not PCSC.is_file():
        missing.append("libpcsclite-dev")
    if missing:
        raise Refused(f"a release needs Debian's {', '.join(missing)}: apt-get install {' '.join(missing)}")


def sum_of(path: Path) -> str:
    """The SHA-256 of a file."""
    return hashlib.sha256(path.read_bytes()).hexdigest()


def stored(path: Path) -> dict[str, str]:
    """Stored sums, by their names."""
    return dict(it.split(": ", 1) for it in path.read_text(encoding="utf-8").splitlines())


def proved(name: str) -> Path:
    """A program or the library, if it is proved and built and has the stored sums."""
    option, begin = PROVED[name]
    ran = subprocess.run([tool("program"), *filter(None, [option, "--is-proved"])], check=False, env=unset())
    if ran.returncode:
        raise Refused(f"{name} isn't proved and built here; {hint(option)} does it, and --unproved does without")
    made = Path(run(tool("program"), option, "--quiet"))
    same = subprocess.run([tool("proved-sum"), "--same", made], capture_output=True, text=True, check=False)
    if same.returncode:
        raise Refused((same.stdout or same.stderr).strip().splitlines()[-1])
    wanted = stored(words("proved.sum")).get(f"{begin}program")
    if option != "--library" and sum_of(made) != wanted:
        raise Refused(f"{name} has not the SHA-256 that was stored when it was proved: build it with the stored kit")
    return made


def unset() -> dict[str, str]:
    """The environment without programs that are given."""
    return {name: it for name, it in os.environ.items() if name not in OTHERS}


def hint(option: str) -> str:
    """The command that proves a program or the library."""
    return {"": "./bench --prove", "--library": "tools/library --prove"}.get(option, f"tools/program {option} --prove")


def check_page(folder: Path) -> None:
    """Refuses a page whose module isn't the stored one, made of the library's proved sources."""
    sums, sources = stored(TOP / "web" / "card.sum"), stored(words("proved.sum")).get("library sources")
    if sums.get("sources") != sources or sums.get("module") != sum_of(folder / "card.wasm"):
        raise Refused("the page's module has not the sums of web/card.sum; tools/page --prove says why")


def check_tree() -> None:
    """Refuses a tree that isn't its commit."""
    if git("rev-parse", "HEAD") is not None and is_changed():
        raise Refused("the tree differs from its commit, so nobody could make this release again: commit first")


def driver(library: Path, room: Path) -> tuple[Path, Path]:
    """The reader driver, and the libpcsclite with the card inside, both made anew."""
    for part in ("reader", "include"):
        shutil.copytree(TOP / part, room / part, ignore=shutil.ignore_patterns("*.so", "out"))
    reader = room / "reader"
    run("make", "-C", reader, f"LIBRARY={library}", *HARD)
    run("make", "-C", reader / "pcsclite", f"LIBRARY={library}", "OUT=out", *HARD)
    return reader, reader / "pcsclite" / "out" / "libpcsclite.so.1"


def current(*words: str) -> list[Path]:
    """The three programs that tools/program takes."""
    return [Path(run(tool("program"), it, *words, "--quiet")) for it in ("", "--sweep", "--flash")]


def build(room: Path, programs: list[Path]) -> Built:
    """All parts, with these three programs."""
    library, page = room / "library", room / "page"
    run(tool("library"), library)
    run(tool("page"), page)
    reader, pcsclite = driver(library, room / "reading")
    bench, sweep, flash = programs[:3]
    return Built(bench, sweep, flash, library, page, reader, pcsclite)


def build_proved(room: Path) -> Built:
    """All parts, if programs, library and page are what was proved."""
    check_tree()
    programs = [proved(name) for name in PROVED]
    built = build(room, programs)
    check_page(built.page)
    return built
