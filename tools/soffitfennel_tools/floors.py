"""The floors of the house, as crates.txt has them: headings, and the crates below each."""
from __future__ import annotations

import re
from dataclasses import dataclass, field
from pathlib import Path

TOP = Path(__file__).resolve().parent.parent.parent
LISTED = TOP / "crates.txt"
HEADING = re.compile(r"# (?:Floor (?P<number>\d+): |Beside all floors: |(?P<tests>(?=Tests$)))(?P<name>.+)$")
CRATE = re.compile(r"(\w+)(?: \w+)?:(.*)$")


@dataclass(frozen=True)
class Crate:
    """A crate, and the crates of this repository that it uses."""

    name: str
    uses: tuple[str, ...]


@dataclass
class Floor:
    """A floor with its number; what stands beside all floors, and the tests, have none."""

    name: str
    number: int | None
    is_test: bool
    crates: list[Crate] = field(default_factory=list)

    @property
    def title(self) -> str:
        """The floor as tables have it."""
        return self.name if self.number is None else f"{self.number} {self.name}"

    @property
    def names(self) -> list[str]:
        """The names of its crates."""
        return [it.name for it in self.crates]


class Unreadable(Exception):
    """crates.txt has no floors."""


def read(text: str | None = None) -> list[Floor]:
    """The floors in the order of crates.txt: those beside, those with a number from the ground up, and the tests."""
    lines = (LISTED.read_text(encoding="utf-8") if text is None else text).split("\n")
    own = {it[1] for it in map(CRATE.match, lines) if it}
    floors: list[Floor] = []
    for line in lines:
        heading, crate = HEADING.match(line), CRATE.match(line)
        if heading:
            number, is_test = heading["number"], heading["tests"] is not None
            floors.append(Floor(heading["name"].lower(), int(number) if number else None, is_test))
        elif crate and not floors:
            raise Unreadable(f"crates.txt: {crate[1]} stands below no heading of a floor")
        elif crate:
            floors[-1].crates.append(Crate(crate[1], tuple(it for it in crate[2].split() if it in own)))
    return floors


def on(*titles: str) -> list[str]:
    """The crates of the floors with these names."""
    floors = {it.name: it for it in read()}
    unknown = [it for it in titles if it not in floors]
    if unknown:
        raise Unreadable(f"crates.txt has no floor named {', '.join(unknown)}")
    return [name for title in titles for name in floors[title].names]
