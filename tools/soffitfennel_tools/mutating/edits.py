"""Mutants: what an edit file changes in the sources of its crate."""
from __future__ import annotations

import re
from dataclasses import dataclass
from pathlib import Path

from .functions import Function, functions_of


class Unfit(Exception):
    """The edit file doesn't apply to the sources."""


@dataclass(frozen=True)
class Edit:
    """An edit file: its name, and the texts of the files that it changes, by their path in the crate."""

    name: str
    path: Path
    texts: dict[str, str]
    changed: frozenset[Function]
    # true if all that it changes is inside of functions that run, and no line is more or less than before
    is_inside: bool

    def owns(self, place: re.Match[str]) -> bool:
        """True for a path and a line in a function that it changes, or in the proof of one."""
        return any(it.has(place[1], int(place[2])) for it in self.changed)

    @property
    def names(self) -> set[tuple[str, str]]:
        """The names of the functions that it changes: the path of a proof doesn't tell two with one name apart."""
        return {(it.path, it.name) for it in self.changed}

    @property
    def modules(self) -> set[str]:
        """The modules of its files, as `rt check --only` names them; the crate's root has the empty name."""
        return {Path(path).stem if Path(path).stem not in ("lib", "main") else "" for path in self.texts}


def changes_of(text: str) -> list[tuple[str, str, str]]:
    """The changes of an edit file in their order: a path, the old text and the new one."""
    found, path, old = [], "", ""
    for line in text.split("\n"):
        if line.startswith("file: "):
            path = line.removeprefix("file: ").strip()
        elif line.startswith("old: "):
            old = line.removeprefix("old: ")
        elif line.startswith("new:"):
            found.append((path, old, line.removeprefix("new:").removeprefix(" ")))
    return found


def texts_of(edit: Path, folder: Path) -> dict[str, str]:
    """The texts of the files that an edit changes."""
    texts: dict[str, str] = {}
    for path, old, new in changes_of(edit.read_text(encoding="utf-8")):
        if path not in texts:
            if not (folder / path).is_file():
                raise Unfit(f"there is no file {path}")
            texts[path] = (folder / path).read_text(encoding="utf-8")
        if texts[path].count(old) != 1:
            raise Unfit(f"its old text stands {texts[path].count(old)} times in {path}, not once")
        texts[path] = texts[path].replace(old, new)
    if not texts:
        raise Unfit("it changes nothing")
    return texts


def changed_lines(old: str, new: str) -> list[int] | None:
    """The numbers of the lines that differ, or nothing if their number does."""
    before, after = old.split("\n"), new.split("\n")
    if len(before) != len(after):
        return None
    return [number for number, pair in enumerate(zip(before, after), 1) if pair[0] != pair[1]]


def read(edit: Path, folder: Path) -> Edit:
    """The mutant of an edit file, over the sources of a crate."""
    texts = texts_of(edit, folder)
    changed: set[Function] = set()
    is_inside = True
    for path, text in texts.items():
        lines = changed_lines((folder / path).read_text(encoding="utf-8"), text)
        owners = [owner_of(folder, path, number) for number in lines or []]
        is_inside = is_inside and bool(owners) and all(it and not it.is_const for it in owners)
        changed.update(it for it in owners if it)
    return Edit(edit.stem, edit, texts, frozenset(changed), is_inside)


def owner_of(folder: Path, path: str, number: int) -> Function | None:
    """The function that has a line of a source."""
    return next((it for it in functions_of(folder) if it.path == path and it.begin <= number <= it.end), None)


def merged(folder: Path, edits: list[Edit]) -> dict[str, str]:
    """The texts of files with several mutants, no two of which change one line."""
    texts: dict[str, list[str]] = {}
    for edit in edits:
        for path, text in edit.texts.items():
            old = (folder / path).read_text(encoding="utf-8")
            lines = texts.setdefault(path, old.split("\n"))
            for number in changed_lines(old, text) or []:
                lines[number - 1] = text.split("\n")[number - 1]
    return {path: "\n".join(lines) for path, lines in texts.items()}
