"""The page of conformance: its clauses, what it says of each, and whether its sections are there."""
from __future__ import annotations

import re
from dataclasses import dataclass
from functools import lru_cache

from .citations import Clause
from .contracts import TOP

PAGE = TOP / "docs" / "CONFORMANCE.md"
HEADING = re.compile(r"## .*?(7816-[349]|102 22[12])")
ROW = re.compile(r"\| ([^|]*?) \| ([^|]*?) \| ([^|]*?) \| ([^|]*?) \|")
KEY = re.compile(r"`([08]0[0-9A-F]{2})`")
LINK = re.compile(r"\[[^]]*\]\(([\w.]+)(?:#([\w-]+))?\)")
STATUSES = ("implemented", "restricted", "choice", "left out")


@dataclass(frozen=True)
class Entry:
    """A row of the page."""

    line: int
    clause: Clause
    title: str
    key: str | None
    status: str
    said: str

    @property
    def is_there(self) -> bool:
        """Whether the card has it."""
        return self.status != "left out"


@lru_cache(maxsize=None)
def entries() -> list[Entry]:
    """The rows of the page's tables, in their order."""
    found, standard = [], None
    for number, line in enumerate(PAGE.read_text(encoding="utf-8").split("\n"), 1):
        heading, row = HEADING.match(line), ROW.match(line)
        if line.startswith("## "):
            standard = heading[1] if heading else None
        if standard and row and row[1] != "clause" and not row[1].startswith("---"):
            key = KEY.search(row[2])
            title = KEY.sub("", row[2]).strip(" ,")
            found.append(Entry(number, Clause(standard, row[1]), title, key[1] if key else None, row[3], row[4]))
    return found


def anchor(heading: str) -> str:
    """The anchor of a heading, as the pages' reader makes it."""
    kept = re.sub(r"[^\w\- ]", "", heading.lower())
    return kept.strip().replace(" ", "-")


@lru_cache(maxsize=None)
def anchors(name: str) -> set[str]:
    """The anchors of a page of docs/."""
    text = (TOP / "docs" / name).read_text(encoding="utf-8")
    return {anchor(heading) for heading in re.findall(r"^#+ (.*)$", text, re.M)}


def broken_links(entry: Entry) -> list[str]:
    """The links of a row that lead to no section."""
    broken = []
    for name, section in LINK.findall(entry.said):
        is_page = (TOP / "docs" / name).is_file()
        if not is_page or (section and section not in anchors(name)):
            broken.append(f"{name}#{section}")
    return broken
