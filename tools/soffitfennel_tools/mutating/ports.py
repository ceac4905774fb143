"""Mutants of the crates of a port: tools/tests/ports/PORT/CRATE/KIND has those of a crate of what tools/port writes."""
from __future__ import annotations

import tempfile
from collections.abc import Callable, Iterator
from contextlib import ExitStack, contextmanager
from dataclasses import dataclass
from functools import partial
from pathlib import Path

from ..chips.module import BOARD, FLASH
from ..porting.over_flash import OWN_ON_FLASH, SPARES, UNITS, own_crates
from ..porting.over_flash import fill as fill_over_flash
from ..porting.writing import OWN, TOP, fill, needed, write_port
from .trying import BUILT, Crate, copy_part

FOLDER = TOP / "tools" / "tests" / "ports"


@dataclass(frozen=True)
class Port:
    """A kind of port: what writes its files, the crates of its own, and the one that declares functions of C."""

    fill: Callable[[Path], None]
    own: dict[str, str]
    declares: str


PORTS = {
    "board": Port(fill, OWN, BOARD),
    "flash": Port(fill_over_flash, OWN_ON_FLASH, FLASH),
    "spares": Port(partial(fill_over_flash, spares=3), SPARES.own(), FLASH),
    "small": Port(
        partial(fill_over_flash, slots=2125, sector_words=1024, unit=2, small=True), own_crates(UNITS, True), FLASH,
    ),
}


def folders_of(kind: str) -> list[tuple[str, Path]]:
    """The folders of mutants, each behind its port. Those of the small crates, which declare functions of C, come
    first."""
    found = [(port, folder) for port in PORTS for folder in sorted(FOLDER.glob(f"{port}/*/{kind}"))]
    return sorted(found, key=lambda it: it[1].parent.name != PORTS[it[0]].declares)


@contextmanager
def written(port: str) -> Iterator[Path]:
    """A port, until its tests end."""
    with tempfile.TemporaryDirectory() as room:
        write_port(Path(room) / "port", PORTS[port].fill)
        yield Path(room) / "port"


@contextmanager
def all_written() -> Iterator[dict[str, Path]]:
    """Each port by its name, until their tests end."""
    with ExitStack() as left:
        yield {port: left.enter_context(written(port)) for port in PORTS}


def take_libraries(place: Path, port: str) -> None:
    """Gives a port that is written the libraries that earlier checks have built of the crates below its own."""
    for below in needed(PORTS[port].own):
        if not (place / "crates" / below / BUILT).exists():
            copy_part(TOP, place, below, BUILT)


def crate_of(place: Path, port: str, name: str) -> Crate:
    """A crate of a port that is written."""
    take_libraries(place, port)
    return Crate(place, name, PORTS[port].declares)
