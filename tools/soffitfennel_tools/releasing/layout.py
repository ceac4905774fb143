"""What an installation has, and where: commands, programs, manual pages, completion, the page, documents."""
from __future__ import annotations

import fnmatch
import os
import shutil
from pathlib import Path

from ..arguments import commands
from . import completion, manuals
from .building import Built
from .commands import Command, help_of, read
from .tree import TOP, commit, files, tool, version, words

NAME = "soffitfennel"
ABOUT = "runs scripts against a smart card whose memory can lose power at any write"
# what only a clone has a use for: it builds, proves, measures or tests the tree
DEVELOPERS = (
    "tests", "dev", "release", "releasing", "library", "page", "paging", "narrowing", "unproved", "unproving", "prove",
    "checked", "costing", "mutating", "floors.py", "reading", "trace", "tracing", "pcscd.py", "vpcd.py",
    "cost.table", "crate.seconds", "README.md", "mypy.ini", "chip", "chips", "port", "porting",
)
# what tools/with-card gives OpenSC
OPENSC = "examples/cards/opensc.conf"
DOCUMENTS = ("README.md", "CHANGELOG.md", "SECURITY.md", "LICENSE-APACHE", "LICENSE-MIT", "docs", "examples")
BASH, ZSH = "share/bash-completion/completions", "share/zsh/site-functions"
FISH = "share/fish/vendor_completions.d"


def copy(source: Path, to: Path) -> None:
    """Copies a file, with the mode that a file of everybody has."""
    to.parent.mkdir(parents=True, exist_ok=True)
    shutil.copyfile(source, to)
    to.chmod(0o755 if os.access(source, os.X_OK) else 0o644)


def write(to: Path, text: str) -> None:
    """Writes a text, for everybody to read."""
    to.parent.mkdir(parents=True, exist_ok=True)
    to.write_text(text, encoding="utf-8")
    to.chmod(0o644)


def is_users(path: Path) -> bool:
    """Whether a file of tools/ is one that a user's command needs."""
    parts = path.relative_to(TOP / "tools").parts
    return not any(fnmatch.fnmatch(it, pattern) for it in parts for pattern in DEVELOPERS)


def install_programs(own: Path, built: Built) -> None:
    """The wrapper, the tools, and the programs beside them."""
    for path in [TOP / "bench", TOP / OPENSC, *filter(is_users, files("tools"))]:
        copy(path, own / path.relative_to(TOP))
    write(own / words("commit").relative_to(TOP), f"{commit().split(',')[0]}\n")
    programs = {"bench_cli": built.bench, "sweep_cli": built.sweep, "flash_cli": built.flash}
    for name, path in (*programs.items(), (built.pcsclite.name, built.pcsclite)):
        copy(path, own / "programs" / name)


def link_commands(prefix: Path) -> list[str]:
    """Puts the commands on the path; their names."""
    (prefix / "bin").mkdir(parents=True, exist_ok=True)
    names = {NAME: "bench"} | {f"{NAME}-{it}": str(tool(it).relative_to(TOP)) for it in commands()}
    for name, path in names.items():
        link = prefix / "bin" / name
        link.unlink(missing_ok=True)
        link.symlink_to(f"../lib/{NAME}/{path}")
    return list(names)


def describe(prefix: Path, names: list[str]) -> None:
    """Manual pages and completion, by the --help of the installed commands."""
    told = [read(name, help_of(prefix / "bin" / name, name)) for name in names]
    for it in told:
        others = [name for name in names if name != it.name][:1 if it.name != NAME else None]
        summary = ABOUT if it.name == NAME else it.summary()
        write(prefix / "share/man/man1" / f"{it.name}.1", manuals.page(it, summary, version(), others))
    complete(prefix, told)


def complete(prefix: Path, told: list[Command]) -> None:
    """The files of completion. Bash and fish look for one with the command's name, zsh for any."""
    write(prefix / BASH / NAME, completion.bash(told))
    write(prefix / ZSH / f"_{NAME}", completion.zsh(told))
    for it in told:
        write(prefix / FISH / f"{it.name}.fish", completion.fish(it))
        if it.name != NAME:
            link = prefix / BASH / it.name
            link.unlink(missing_ok=True)
            link.symlink_to(NAME)


def install(prefix: Path, built: Built) -> None:
    """Puts commands, page and documents below a prefix, in place of those of another version."""
    uninstall(prefix)
    install_programs(prefix / "lib" / NAME, built)
    describe(prefix, link_commands(prefix))
    copy(built.page / "card.html", prefix / "share" / NAME / "card.html")
    for path in files(*DOCUMENTS):
        copy(path, prefix / "share/doc" / NAME / path.relative_to(TOP))


def uninstall(prefix: Path) -> None:
    """Takes away what install put there."""
    for name in (NAME, *(f"{NAME}-{it}" for it in commands())):
        for path in (f"bin/{name}", f"share/man/man1/{name}.1", f"{BASH}/{name}", f"{FISH}/{name}.fish"):
            (prefix / path).unlink(missing_ok=True)
    (prefix / ZSH / f"_{NAME}").unlink(missing_ok=True)
    for folder in ("lib", "share", "share/doc"):
        shutil.rmtree(prefix / folder / NAME, ignore_errors=True)
