"""Checks of a copy of the repository with mutants in its sources."""
from __future__ import annotations

import os
import re
import shutil
import subprocess
from collections.abc import Callable, Iterator
from dataclasses import dataclass
from pathlib import Path

from ..chips.module import ALLOWED
from ..git_environment import without_git
from .batches import batches_of
from .edits import Edit, Unfit, merged, read

PARTS = ("src", "specs", "proofs")
# the libraries of a crate, as earlier checks have built them
BUILT = "out/rlib"
# how the files of these parts are copied; what a build replaces, and never changes, is linked
COPIES: dict[str, Callable[[str, str], object]] = dict.fromkeys(PARTS, shutil.copy2)
# an error, with the goal that it is about, or a note that a goal is not proved, or that the search for it gave up
SEARCHED = "what antt said of a `search` in the proof that rattle made: "
ERROR = re.compile(
    rf"(?:note: (?:{SEARCHED})?)?(?:\./)?((?:src|proofs)/\S+):(\d+):\d+: (?:error: |it is not proved that )(.*)"
)
GOAL = re.compile(r"^(?:.*\()?`([\w.-]+)`[:)]")
# an error in a source that the prover doesn't get to read
UNREAD = re.compile(r"(?:\./)?(src/\S+):(\d+):\d+: error\[")
# The prover refuses a text because it names something that the mutant took away. This shows nothing of the contract.
NAMES = re.compile(r"has no field|is not in scope|has no `|was not admitted")
# nor does what `rt must-fail` says where all errors are of such names, or of what depends on a text with one
ALONE_NAMES = re.compile(r"only because a proof file names|which was rejected, was not checked")


@dataclass(frozen=True)
class Verdict:
    """What a try of a mutant came to."""

    edit: str
    is_refused: bool
    said: str


def read_folder(folder: Path, crate: Path) -> tuple[list[Edit], list[Verdict]]:
    """The mutants of a folder, over the sources of a crate, and what is said of those that don't apply."""
    edits, unfit = [], []
    for path in sorted(folder.glob("*.edit")):
        try:
            edits.append(read(path, crate))
        except Unfit as why:
            unfit.append(Verdict(path.stem, False, f"doesn't apply: {why}"))
    return edits, unfit


def stands_on(top: Path, name: str) -> set[str]:
    """A crate, and all those of the repository that it stands on."""
    listed = re.findall(r"^(\w+)[^:\n]*:(.*)$", (top / "crates.txt").read_text(encoding="utf-8"), re.M)
    below = {crate: libraries.split() for crate, libraries in listed}
    found: set[str] = set()
    left = [name]
    while left:
        crate = left.pop()
        if crate in below and crate not in found:
            found.add(crate)
            left.extend(below[crate])
    return found


def copy_crate(top: Path, room: Path, name: str) -> None:
    """Copies a crate, those below it, and the libraries that earlier checks have built: these save proving the crates
    below."""
    copied = stands_on(top, name)
    lines = (top / "crates.txt").read_text(encoding="utf-8").splitlines(keepends=True)
    kept = [line for line in lines if re.split(r"\W", line)[0] in copied]
    (room / "crates.txt").write_text("".join(kept), encoding="utf-8")
    shutil.copy(top / "HANDLES", room)
    subprocess.run(["git", "init", "--quiet", str(room)], check=True, env=without_git())
    for crate in copied:
        for part in (*PARTS, BUILT):
            copy_part(top, room, crate, part)


def copy_part(top: Path, room: Path, crate: str, part: str) -> None:
    """Copies a folder of a crate, if it is there."""
    source = top / "crates" / crate / part
    if source.is_dir():
        shutil.copytree(source, room / "crates" / crate / part, copy_function=COPIES.get(part, link))


def run(folder: Path, *words: str, allowed: str = "") -> str:
    """What a command of the toolchain prints, run in a folder. A crate may be allowed to declare functions of C."""
    environment = {**os.environ, ALLOWED: allowed} if allowed else None
    out, err, command = subprocess.PIPE, subprocess.STDOUT, ["rt", *words]
    return subprocess.run(command, cwd=folder, env=environment, check=False, text=True, stdout=out, stderr=err).stdout


def link(one: str, other: str) -> str:
    """Links a file that a build replaces and never changes."""
    try:
        os.link(one, other)
    except OSError:
        shutil.copy2(one, other)
    return other


def link_proof(one: str, other: str) -> str:
    """Links what was proved, which a check replaces and never changes, and copies all else."""
    return link(one, other) if one.endswith(".oantt") else str(shutil.copy2(one, other))


class Crate:
    """A crate in the copy, and what a check of its unchanged sources has proved. It may stand on a crate of the copy
    that declares functions of C, or be that crate."""

    def __init__(self, room: Path, name: str, allowed: str = "") -> None:
        self.name = name
        self.room = room
        self.allowed = allowed
        self.folder = room / "crates" / name
        self.kept = self.folder / "out" / "incremental"
        self.seed = room / "seed" / name

    def prove(self) -> bool:
        """Proves the unchanged crate, and keeps its proofs for each of the tries."""
        said = run(self.folder, "check", "--jobs", "1", allowed=self.allowed)
        if not re.search(r"^logic=proved", said, re.M):
            print(said, end="")
            return False
        shutil.copytree(self.kept, self.seed, copy_function=link_proof)
        return True

    def reset(self) -> None:
        """Begins the next check with the proofs of the unchanged crate."""
        shutil.rmtree(self.kept, ignore_errors=True)
        shutil.copytree(self.seed, self.kept, copy_function=link_proof)

    def write(self, texts: dict[str, str]) -> None:
        """Writes these files."""
        for path, text in texts.items():
            (self.folder / path).write_text(text, encoding="utf-8")

    def check_with(self, edits: list[Edit]) -> list[str]:
        """The lines that a check prints with these mutants."""
        self.reset()
        old = {path: (self.folder / path).read_text(encoding="utf-8") for edit in edits for path in edit.texts}
        modules = sorted(set().union(*(edit.modules for edit in edits)))
        only = [] if "" in modules else [word for module in modules for word in ("--only", module)]
        self.write(merged(self.folder, edits) if len(edits) > 1 else edits[0].texts)
        try:
            return run(self.folder, "check", "--jobs", "1", *only, allowed=self.allowed).split("\n")
        finally:
            self.write(old)

    def try_alone(self, edits: list[Edit]) -> list[Verdict]:
        """Tries mutants by `rt must-fail`, each in a check of its own."""
        self.reset()
        tried = self.folder / "must-fail"
        tried.mkdir()
        for edit in edits:
            shutil.copy(edit.path, tried)
        said = run(self.room, "must-fail", self.name, allowed=self.allowed)
        shutil.rmtree(tried)
        return [alone_verdict(edit, said) for edit in edits]

    def try_together(self, edits: list[Edit]) -> list[Verdict]:
        """The mutants of a group that the prover refuses in one check, but for those that it can't read."""
        lines = self.check_with(edits)
        unread = [match for line in lines if (match := UNREAD.match(line))]
        readable = [edit for edit in edits if not any(edit.owns(match) for match in unread)]
        if unread and len(readable) < len(edits):
            return self.try_together(readable) if readable else []
        errors = [error for line in lines if (error := ERROR.match(line))]
        found = ((edit, open_goals(edit, errors)) for edit in edits)
        return [Verdict(edit.name, True, ", ".join(goals)) for edit, goals in found if goals]

    def try_all(self, edits: list[Edit]) -> Iterator[Verdict]:
        """Tries mutants in groups, and alone those that no group refuses."""
        left = {edit.name: edit for edit in edits}
        for group in batches_of(edits):
            for verdict in self.try_together(group):
                del left[verdict.edit]
                yield verdict
        if left:
            yield from self.try_alone(list(left.values()))


def open_goals(edit: Edit, errors: list[re.Match[str]]) -> list[str]:
    """The goals that the prover refuses in the functions that a mutant changes. An error that names what the mutant
    took away is none."""
    goals = (GOAL.search(it[3]) for it in errors if edit.owns(it) and not NAMES.search(it[3]))
    return list(dict.fromkeys(goal[1] for goal in goals if goal))


def alone_verdict(edit: Edit, said: str) -> Verdict:
    """What `rt must-fail` says of a mutant."""
    label = re.compile(rf"must-fail \w+/{re.escape(edit.path.name)}: (.*)")
    found = (match[1] for line in said.split("\n") if (match := label.search(line)))
    told = next(found, "rt must-fail says nothing of it")
    refused, _, reason = told.partition("refused, as it must be")
    is_refused = not refused and bool(reason) and not ALONE_NAMES.search(told)
    return Verdict(edit.name, is_refused, reason.removeprefix(": ") if is_refused else told)
