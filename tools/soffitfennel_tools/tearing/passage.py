"""The cards that a session passes through."""
from __future__ import annotations

import os
import subprocess
from dataclasses import dataclass
from pathlib import Path
from typing import Any

from ..card_image.image import image_of
from ..card_image.telling import file_values, pin_values
from ..card_image.tree import Card, read

PATIENCE = 60


class Strange(Exception):
    """A session that can't be torn, and why."""


@dataclass(frozen=True)
class State:
    """A card without the tries of its PINs, and without the place of each file in memory; and these tries."""

    told: str
    tries: tuple[tuple[int, int], ...]


def state_of(raw: bytes) -> State | None:
    """The state in an image; None where it holds no card."""
    card = read(image_of(raw)).card
    if card is None:
        return None
    return State(repr(values(card)), tuple((it.tries, it.unblocking_tries) for it in card.pins))


def values(card: Card) -> list[Any]:
    """What is compared: files, PINs, free space."""
    files = [
        {key: it for key, it in file_values(file).items() if key not in ("blocks", "entry")} for file in card.files
    ]
    pins = [{key: it for key, it in pin_values(pin, True).items() if "tries" not in key} for pin in card.pins]
    return [card.is_terminated, files, pins, len(card.free_chain)]


@dataclass(frozen=True)
class Passage:
    """The states of a session in their order, each once where nothing changed, and how few and many tries it saw."""

    states: list[str]
    least: list[tuple[int, int]]
    most: list[tuple[int, int]]
    commands: int

    def places(self, state: State) -> tuple[int, ...]:
        """The state's places in the session; none where the session doesn't pass through it."""
        return tuple(place for place, it in enumerate(self.states) if it == state.told)

    def has_tries(self, state: State) -> bool:
        """Whether no PIN has more tries than the session ever shows, and none lost more than the one under way."""
        limits = zip(state.tries, self.least, self.most)
        return all(low[at] - 1 <= own[at] <= high[at] for own, low, high in limits for at in (0, 1))


def passage_of(program: str, image: Path, log: Path) -> Passage:
    """Plays a recorded session by the bench, and looks at the card behind each answer."""
    first = state_of(image.read_bytes())
    if first is None:
        raise Strange("the image holds no card")
    found, commands = [first], 0
    words = [program, "--card", str(image)]
    with subprocess.Popen(words, stdin=subprocess.PIPE, stdout=subprocess.PIPE, text=True) as bench:
        assert bench.stdin and bench.stdout
        for line in log.read_text(encoding="ascii").splitlines():
            if line.startswith(("=", "#")):
                continue
            bench.stdin.write(f"{line}\n")
            bench.stdin.flush()
            if line.startswith(("on", "apdu")) and not bench.stdout.readline():
                raise Strange(f"the bench stopped at '{line[:40]}'")
            commands += line.startswith("apdu")
            state = state_of(image.read_bytes())
            if state is None:
                raise Strange(f"there is no card behind '{line[:40]}'")
            found.append(state)
    told = [it.told for at, it in enumerate(found) if at == 0 or found[at - 1].told != it.told]
    pins = range(len(first.tries))
    least = [(min(it.tries[pin][0] for it in found), min(it.tries[pin][1] for it in found)) for pin in pins]
    most = [(max(it.tries[pin][0] for it in found), max(it.tries[pin][1] for it in found)) for pin in pins]
    return Passage(told, least, most, commands)


def recovered(program: str, image: Path) -> bytes:
    """The image after the next power-on."""
    ran = subprocess.run(
        [program, "--card", str(image)], input="on\n", text=True, capture_output=True, timeout=PATIENCE
    )
    if ran.returncode or not ran.stdout.startswith("atr "):
        return b""
    return image.read_bytes()


def private_copy(source: Path, copy: Path) -> None:
    """A private copy of a card."""
    with open(os.open(copy, os.O_WRONLY | os.O_CREAT | os.O_EXCL, 0o600), "wb") as it:
        it.write(source.read_bytes())
