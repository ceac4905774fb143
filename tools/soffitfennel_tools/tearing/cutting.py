"""Runs of a client, each cut at one device write."""
from __future__ import annotations

import os
import shutil
import signal
import subprocess
import tempfile
from collections.abc import Iterator
from contextlib import contextmanager
from dataclasses import dataclass, replace
from pathlib import Path

from ..sessions.building import built
from ..sessions.running import Settings, prepared

from .passage import Passage, Strange, passage_of, private_copy, recovered, state_of


@dataclass(frozen=True)
class Cut:
    """A run that lost power at a device write, and what was found."""

    write: int
    mask: int
    status: int | None  # of the client; None where it didn't end in time
    places: tuple[int, ...] = ()  # of the recovered card in the session
    fault: str = ""


@dataclass(frozen=True)
class Client:
    """A client, its card, and how long it may take."""

    command: list[str]
    card: Path
    program: str
    library: Path
    view: str
    patience: int

    @contextmanager
    def session(self, cut: tuple[int, int] | None) -> Iterator[tuple[Path, Path, int | None, int, bool]]:
        """Runs the client on a copy of its card: the copy, the record, its status, device writes, and whether power
        failed."""
        room = Path(tempfile.mkdtemp(prefix="tear-"))
        try:
            copy, log = room / "card", room / "log"
            private_copy(self.card, copy)
            settings = Settings([str(copy)], log=str(log), cut=cut, view=self.view)
            with prepared(settings, self.library) as session:
                status = run(self.command, session.environment, self.patience)
                yield copy, log, status, session.writes(), session.has_cut()
        finally:
            shutil.rmtree(room, ignore_errors=True)

    def uncut(self) -> tuple[Passage, int, int]:
        """The cards that the session passes through, its device writes, and the client's status."""
        with self.session(None) as (copy, log, status, writes, _):
            if status is None:
                raise Strange(f"the client doesn't end within {self.patience} seconds; --patience gives it more")
            if not writes:
                raise Strange("the client changes nothing on the card, so there is no write to cut")
            again = log.with_name("again")
            private_copy(self.card, again)
            passage = passage_of(self.program, again, log)
            last = state_of(copy.read_bytes())
            if last is None or last.told != passage.states[-1]:
                raise Strange("the recorded session doesn't lead to the client's card")
            return passage, writes, status

    def cut(self, passage: Passage, write: int, mask: int) -> Cut:
        """A run that loses power at a device write."""
        with self.session((write, mask)) as (copy, _, status, _, has_cut):
            if not has_cut:
                return Cut(write, mask, status, (), "power didn't fail: the client's session is another one this time")
            state = state_of(recovered(self.program, copy) or b"")
            if state is None:
                return Cut(write, mask, status, (), "NO CARD after the next power-on")
            places = passage.places(state)
            if not places:
                return Cut(write, mask, status, (), "a card that the session never passes through")
            fault = "" if passage.has_tries(state) else "a PIN with more or fewer tries than the session leads to"
            return Cut(write, mask, status, places, fault)


def run(command: list[str], environment: dict[str, str], patience: int) -> int | None:
    """The status of a client, which ends in time with all that it started."""
    try:
        process = subprocess.Popen(
            command,
            env=environment,
            stdin=subprocess.DEVNULL,
            stdout=subprocess.DEVNULL,
            stderr=subprocess.DEVNULL,
            start_new_session=True,
        )
    except OSError as why:
        raise Strange(f"{command[0]}: {why.strerror}") from None
    try:
        status = process.wait(patience)
        return 128 - status if status < 0 else status
    except subprocess.TimeoutExpired:
        return None
    finally:
        try:
            os.killpg(process.pid, signal.SIGKILL)
        except ProcessLookupError:
            pass
        process.wait()


def client_of(command: list[str], card: str, program: str, view: str, patience: int) -> Client:
    """A client whose program is there."""
    if not shutil.which(command[0]):
        raise Strange(f"there is no program {command[0]}")
    return Client(command, Path(card), program, built(), view, patience)


def ordered(cuts: list[Cut]) -> list[Cut]:
    """The cuts by their writes; one that leads to an earlier card than a cut before it is a fault."""
    found: list[Cut] = []
    floor: dict[int, int] = {}
    for it in sorted(cuts, key=lambda it: (it.write, it.mask)):
        later = [place for place in it.places if place >= floor.get(it.mask, 0)]
        if later:
            it = replace(it, places=(later[0],))
            floor[it.mask] = later[0]
        elif it.places and not it.fault:
            it = replace(it, places=it.places[-1:], fault="an earlier card than a cut before it left")
        found.append(it)
    return found
