"""What well-known files hold, in words, by words/known.table. Files whose content has another form are said to."""

from __future__ import annotations

from collections.abc import Callable, Iterator
from dataclasses import dataclass, field
from functools import cache
from pathlib import Path

from . import forms
from .tree import Card, File

TABLE = Path(__file__).resolve().parent.parent.parent / "words" / "known.table"
# a certificate's own form is looked for in files of any identifier
ANY = "*"
Form = Callable[[bytes], Iterator[str]]


@dataclass(frozen=True)
class Known:
    """A well-known file: its name, the standard that has it, and its content in words."""

    name: str
    source: str
    words: list[str]


@dataclass
class Table:
    """The table: folders by path or by the begin of their name, files, services."""

    paths: dict[str, str] = field(default_factory=dict)
    names: dict[str, str] = field(default_factory=dict)
    # by folder and identifier: the form, the name, the standard
    files: dict[str, tuple[str, str, str]] = field(default_factory=dict)
    services: dict[int, str] = field(default_factory=dict)

    def take(self, line: str) -> None:
        """Takes a line of the file."""
        kind, key, rest = line.split(" ", 2)
        first, _, words = rest.partition(" ")
        if kind == "folder":
            (self.paths if first == "path" else self.names)[words] = key
        elif kind == "file":
            name, _, source = words.partition("; ")
            self.files[key] = first, name, source
        else:
            self.services[int(key)] = rest

    def folder(self, card: Card, path: str) -> str:
        """The folder of the table that a DF is; nothing for another one."""
        own = card.by_path[path].entry.name.hex().upper()
        found = [folder for begin, folder in self.names.items() if own.startswith(begin)]
        return self.paths.get(path) or (found[0] if found else "")

    def form(self, word: str) -> Form:
        """The function of a form."""
        if word == "services":
            return self.shown_services
        form: Form = getattr(forms, word)
        return form

    def shown_services(self, content: bytes) -> Iterator[str]:
        """The services of EF.UST, by name where the table has one."""
        bits = int.from_bytes(content, "little")
        shown = [it + 1 for it in range(8 * len(content)) if bits >> it & 1]
        yield "services " + (", ".join(f"{it} {self.services.get(it, '')}".strip() for it in shown) or "none")


@cache
def table() -> Table:
    """The table of the file."""
    found = Table()
    for line in TABLE.read_text(encoding="utf-8").splitlines():
        if line and not line.startswith("#"):
            found.take(line)
    return found


def known(card: Card, file: File) -> Known | None:
    """A well-known file in words; None for another one."""
    if file.is_directory:
        return None
    folder = table().folder(card, file.path.rpartition("/")[0])
    exact, general = (table().files.get(f"{folder}/{it}") for it in (file.identifier, ANY))
    row = exact or general
    if row is None:
        return None
    word, name, source = row
    try:
        return Known(name, source, list(in_words(file, table().form(word))))
    except ValueError:
        return Known(name, source, [f"its content hasn't the form of {source}"]) if exact else None


def in_words(file: File, form: Form) -> Iterator[str]:
    """The words for a file's content, or for each record that was written; no sign of them moves a terminal."""
    contents = file.records if file.has_records else [file.body]
    for number, content in enumerate(contents, 1):
        if forms.is_blank(content):
            continue
        for words in form(content):
            yield (f"record {number}: " if file.has_records else "") + printable(words)


def printable(text: str) -> str:
    """A text whose signs can all be shown, others by their numbers."""
    return "".join(it if it.isprintable() else f"\\u{ord(it):04X}" for it in text)
