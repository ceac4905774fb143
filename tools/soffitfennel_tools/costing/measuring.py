"""All that tools/dev/cost stores and compares: lines, calls of the library, and what calls take of stack and heap."""
from __future__ import annotations

from collections.abc import Iterator
from concurrent.futures import ThreadPoolExecutor
from typing import NamedTuple

from . import calls, limits, page, space
from .callgrind import Counts, cost
from .kinds import Kind
from .limits import Measured
from .space import Space
from .stored import fault


class Library(NamedTuple):
    """What is measured of the library: the instructions of its calls, and what calls take of stack and heap."""

    called: dict[str, Counts]
    spaces: dict[str, Space]


class Everything(NamedTuple):
    """What is measured of the program and of the library, and the kinds of line that are chosen."""

    kinds: list[Kind]
    own: dict[str, Counts]
    library: Library

    def numbers(self) -> dict[str, int]:
        """The numbers to store, by their names."""
        counted = {name: it.own for name, it in {**self.own, **self.library.called}.items()}
        return {**counted, **dict(space.numbers(self.library.spaces))}

    def stored_faults(self, stored: dict[str, int]) -> Iterator[tuple[str, str | None]]:
        """Each number, and what is wrong with it beside the stored one, if anything."""
        yield from ((name, fault(name, now, stored.get(name))) for name, now in self.numbers().items())


def count_all(kinds: list[Kind], program: str, jobs: int) -> dict[str, Counts]:
    """The instructions of each kind."""
    with ThreadPoolExecutor(jobs) as pool:
        return dict(zip([kind.name for kind in kinds], pool.map(lambda kind: cost(program, kind), kinds)))


def count_calls(only: str, jobs: int, library: str) -> dict[str, Counts]:
    """The instructions of each call of the library with a word in its name."""
    chosen = [it for it in calls.CALLS if only in it.name]
    if not chosen:
        return {}
    program = calls.build(library, calls.SOURCE)
    with ThreadPoolExecutor(jobs) as pool:
        return dict(zip([it.name for it in chosen], pool.map(lambda it: calls.call_cost(program, it), chosen)))


def measure_library(only: str, jobs: int, room: str) -> Library:
    """What is measured of the library and has a word in its name."""
    takings = [it for it in space.TAKINGS if any(only in name for name in space.names(it.name))]
    if not takings and not any(only in it.name for it in calls.CALLS):
        return Library({}, {})
    library = calls.build_library(room)
    program = space.build_space(library)
    return Library(count_calls(only, jobs, library), {it.name: space.space(program, it) for it in takings})


def limited(every: Everything, plain: dict[str, Counts], dearer: float, is_all: bool) -> dict[str, Measured]:
    """All that can have a limit, by its name; the medians too, if all is measured."""
    ratios = limits.ratios(every.kinds, every.own, plain, dearer)
    numbers = {**{name: it.all for name, it in every.library.called.items()}, **limits.instructions(every.own)}
    numbers |= dict(space.numbers(every.library.spaces))
    whole = limits.medians(ratios) if is_all else {}
    return {**whole, **{name: Measured(it, it) for name, it in numbers.items()}, **ratios}


def page_faults(
    text: str, every: Everything, plain: dict[str, Counts], found: dict[str, Measured], is_all: bool
) -> Iterator[tuple[str, str | None]]:
    """Each number in a table of the page, and what is wrong with it, if anything."""
    rows = page.rows(text)
    for name in page.SHOWN:
        if name in every.own:
            yield name, page.row_fault(rows.get(name), every.own[name].all, plain[name].all)
    if is_all:
        yield from ((name, "no such line is counted") for name in rows.keys() - set(page.SHOWN))
    yield from calls.page_faults(text, every.library.called)
    yield from limits.faults(text, found, is_all)
