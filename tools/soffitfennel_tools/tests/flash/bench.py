"""Runs the bench with its card on a flash in a file, and reads the flash."""
from __future__ import annotations

import itertools
from pathlib import Path

from ...card_image.flash import LARGE, Flash, Kind
from ...card_image.image import read_image
from ..card.bench import Bench

# with this seed a power loss leaves the complement of what was to be (docs/FLASH.md, "On the bench")
COMPLEMENTS = 0
# a seed for all else
SEED = 7


class FlashBench(Bench):
    """The bench with its card on a kind of flash in a file."""

    def __init__(self, path: str, image: Path, seed: int = SEED, kind: Kind = LARGE) -> None:
        super().__init__(path, image)
        self.seed, self.kind = seed, kind

    def words(self, *options: str) -> list[str]:
        """Its command line. A run may have another seed than the one before."""
        return [self.path, *self.kind.options, str(self.seed), "--card", str(self.image), *options]

    def flash(self) -> Flash:
        """The flash in the file."""
        found = read_image(str(self.image))[0].flash
        assert found is not None
        return found

    def cut(self, line: str, mask: str) -> None:
        """Powers the card on, and loses power at the first write of a line."""
        self.run(f"on\ncut 1 {mask}\n{line}\n")

    def left(self, line: str, mask: str) -> Flash:
        """The flash behind such a power loss. The file stays as it is."""
        image = self.image.read_bytes()
        self.cut(line, mask)
        flash = self.flash()
        self.image.write_bytes(image)
        return flash

    def has_operations(self, line: str, many: int) -> bool:
        """Whether the first write of a line has so many, as a power loss at the last one shows, and at the next."""
        whole = self.left(line, "0001")
        return self.left(line, f"{2 * many - 2:04X}") != whole == self.left(line, f"{2 * many:04X}")

    def operations(self, line: str) -> int:
        """The programs and erases of the first write of a line behind a power-on. A power loss in one of them leaves
        complements, so not what the whole write leaves."""
        assert self.seed == COMPLEMENTS
        whole = self.left(line, "0001")
        return next(it for it in itertools.count() if self.left(line, f"{2 * it:04X}") == whole)
