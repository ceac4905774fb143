"""Folders that keep what tools have built, for all clones and runs of a user."""
from __future__ import annotations

from collections.abc import Iterable
from pathlib import Path


def by_age(paths: Iterable[Path]) -> list[Path]:
    """The paths by the time of their last change, the oldest first. What another run drops meanwhile is left out."""
    times: dict[Path, int] = {}
    for it in paths:
        try:
            times[it] = it.stat().st_mtime_ns
        except FileNotFoundError:
            continue
    return sorted(times, key=times.__getitem__)
