"""The signals that end a tool which has to leave nothing behind."""
import atexit
import signal
import sys
from collections.abc import Iterator
from contextlib import contextmanager
from types import FrameType

STOPS = (signal.SIGINT, signal.SIGTERM, signal.SIGHUP)
# seconds between two looks for a signal
TICK = 0.5


class Stopped(BaseException):
    """A signal asks for the end: its number. As for KeyboardInterrupt, no `except Exception` on the way catches it."""


def wake_for_signals() -> None:
    """Lets the tool look for signals now and then while it waits. Python notes a signal and looks for it between two of
    its own steps: one that comes just before a step that waits would be seen when the wait ends, and that may be never.
    (A process that the tool starts has no timer; a tool that becomes another by exec would have to stop it.)"""
    signal.signal(signal.SIGALRM, lambda *_: None)
    signal.setitimer(signal.ITIMER_REAL, TICK, TICK)
    # (Python takes its handlers away before it has ended: then the timer would end the tool by its signal)
    atexit.register(signal.setitimer, signal.ITIMER_REAL, 0)


def exit_when_terminated() -> None:
    """Makes SIGTERM an exit, so that what lies in temporary folders goes with the tool."""
    signal.signal(signal.SIGTERM, lambda *_: sys.exit(128 + signal.SIGTERM))
    wake_for_signals()


def stop_by_signals() -> None:
    """Makes the first signal that asks for the end an error, so that what was begun is undone. Later ones are ignored
    then. What the caller ignores, as nohup does, stays so."""
    wake_for_signals()
    for it in STOPS:
        if signal.getsignal(it) != signal.SIG_IGN:
            signal.signal(it, stop)


def stop(number: int, _: FrameType | None) -> None:
    """Ends the tool."""
    for it in STOPS:
        signal.signal(it, signal.SIG_IGN)
    raise Stopped(number)


@contextmanager
def held_back() -> Iterator[None]:
    """A block that no signal interrupts: one that asks for the end does so behind the block. (A mask of signals would
    hold for the processes that the block starts, too.)"""
    came: list[int] = []
    stops = [it for it in STOPS if signal.getsignal(it) == stop]
    for it in stops:
        signal.signal(it, lambda number, _: came.append(number))
    try:
        yield
    finally:
        for it in stops:
            signal.signal(it, stop)
    if came:
        stop(came[0], None)
