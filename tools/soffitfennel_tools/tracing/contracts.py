"""tools/reading as a module: it knows what a contract's clause rests on, and where a definition begins."""
from __future__ import annotations

from functools import lru_cache
from pathlib import Path
from types import ModuleType

from ..commands import command

TOP = Path(__file__).resolve().parent.parent.parent.parent


@lru_cache(maxsize=None)
def reading() -> ModuleType:
    """The module."""
    return command("reading")
