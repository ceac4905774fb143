"""The smart card of Soffitfennel in Python.

>>> with Card() as card:
...     card.power_on()
...     card.transmit(bytes.fromhex("00A4000C022FE2"))
...     card.transmit(bytes.fromhex("00B000000A")).hex().upper()
b';\\x80\\x811\\xfeE\\x8b'
b'\\x90\\x00'
'981032547698103254769000'

The variable SOFFITFENNEL_SO names the shared library; else it is libsoffitfennel.so.1 beside this file, or the
system's. Threads may share a card: it runs one call at a time.
"""

from __future__ import annotations

import ctypes
import enum
import errno
import fcntl
import os
import stat
import sys
import threading
from array import array
from pathlib import Path
from types import TracebackType
from typing import Any, Callable, NamedTuple, NoReturn, Sequence, Union

__all__ = ["ATR", "Card", "CardError", "FreeSpace", "Outcome", "PAGES", "Reader", "State", "library_version"]
__version__ = "0.2.0"

ATR = bytes.fromhex("3B808131FE458B")
PAGES = 1024
ROOM = 258
MOST_WORDS = 65_536
NAME = "libsoffitfennel.so.1"
Bytes = Union[bytes, bytearray, memoryview]
File = Union[int, str, "os.PathLike[str]"]


class Outcome(enum.IntEnum):
    """The outcome of a call."""

    DONE = 0
    MUTE = 1
    DARK = 2
    LOST = 3
    SIZE = 4
    MEMORY = 5
    NO_CARD = 6
    UNSTORED = 7
    ABSENT = 8
    SEND = 9
    RESYNCHED = 10
    BAD_ANSWER = 11
    OUT_OF_TURN = 12


class State(enum.IntFlag):
    """What holds of a card: its power, its device, and the faults that are pending."""

    HAS_POWER = 1
    HAS_DEVICE = 2
    HAS_CUT = 4
    HAS_LOSS = 8
    HAS_GARBLING = 16
    IS_UNSTORED = 32


class CardError(Exception):
    """A call that has no result, with its outcome: a number where the library is newer than this module."""

    def __init__(self, outcome: int):
        self.outcome: int = Outcome(outcome) if outcome in Outcome.__members__.values() else outcome
        super().__init__(_library.soffitfennel_outcome_name(outcome).decode().lower().replace("_", " "))


class FreeSpace(NamedTuple):
    """The unused blocks of the memory, and the unused entries of the file table."""

    blocks: int
    entries: int


def _types() -> dict[str, list[Any]]:
    """The functions that return an outcome, and the types of their parameters."""
    card, size, count = ctypes.POINTER(ctypes.c_void_p), ctypes.POINTER(ctypes.c_size_t), ctypes.c_size_t
    words = ctypes.POINTER(ctypes.c_uint32)
    exchange = [card, ctypes.c_char_p, count, ctypes.c_char_p, count, size]
    number16 = ctypes.POINTER(ctypes.c_uint16)
    return {
        "factory": [card, count],
        "insert": [card, words, count],
        "attach": [card, words, count, ctypes.c_int32],
        "power_on": [card],
        "power_off": [card],
        "command": exchange,
        "block": exchange,
        "cut": [card, ctypes.c_uint32, ctypes.c_uint16],
        "lose": [card, ctypes.c_uint32],
        "garble": [card, ctypes.c_uint32],
        "clear_faults": [card],
        "state": [card, ctypes.POINTER(ctypes.c_uint32)],
        "free_space": [card, number16, number16],
        "words": [card, words, count, size],
        "reader_new": [card],
        "reader_command": exchange,
        "reader_receive": exchange,
        "reader_reset": [card],
    }


def _load() -> ctypes.CDLL:
    """The library, with the types of its functions."""
    beside = Path(__file__).with_name(NAME)
    name = os.environ.get("SOFFITFENNEL_SO") or (str(beside) if beside.exists() else NAME)
    try:
        library = ctypes.CDLL(name)
        for function, types in _types().items():
            found = getattr(library, f"soffitfennel_{function}")
            found.argtypes, found.restype = types, ctypes.c_int32
        for end in (library.soffitfennel_free, library.soffitfennel_reader_free):
            end.argtypes, end.restype = [ctypes.POINTER(ctypes.c_void_p)], None
        library.soffitfennel_version.argtypes, library.soffitfennel_version.restype = [], ctypes.c_char_p
        library.soffitfennel_outcome_name.argtypes = [ctypes.c_int32]
        library.soffitfennel_outcome_name.restype = ctypes.c_char_p
    except (OSError, AttributeError) as error:
        hint = "tools/library builds it, and SOFFITFENNEL_SO names the file"
        raise ImportError(f"the library of Soffitfennel is not found ({error}): {hint}") from None
    return library


_library = _load()


def library_version() -> str:
    """The version of the shared library."""
    version: bytes = _library.soffitfennel_version()
    return version.decode()


def _check(outcome: int) -> None:
    """Raises an error unless the call was done."""
    if outcome != Outcome.DONE:
        raise CardError(outcome)


# the device and inode of each file that a card of this process has (a lock belongs to an open file, and the descriptors
# of one open file share it)
_used: set[tuple[int, int]] = set()
# (the end of another card can come within a block that holds it)
_used_lock = threading.RLock()


def _key(descriptor: int) -> tuple[int, int]:
    """What names a file in this machine."""
    told = os.fstat(descriptor)
    return told.st_dev, told.st_ino


def _hold(descriptor: int) -> None:
    """Keeps all other cards, of this process and others, from a file."""
    with _used_lock:
        if _key(descriptor) in _used:
            raise BlockingIOError(errno.EWOULDBLOCK, "in use")
        fcntl.flock(descriptor, fcntl.LOCK_EX | fcntl.LOCK_NB)
        _used.add(_key(descriptor))


def _close(descriptor: int) -> None:
    """Gives a card's file back."""
    with _used_lock:
        _used.discard(_key(descriptor))
        os.close(descriptor)


def _above_streams(descriptor: int) -> int:
    """A copy of a descriptor above those of the standard streams: a process without one of them gives its number to the
    next file, and would write its messages into the card."""
    return fcntl.fcntl(descriptor, fcntl.F_DUPFD_CLOEXEC, 3)


def _open(file: File, sync: bool) -> int:
    """A descriptor of ours for a card's file, which nobody else may use meanwhile."""
    flags = os.O_RDWR | os.O_CLOEXEC | os.O_NOFOLLOW | os.O_NONBLOCK | (os.O_DSYNC if sync else 0)
    if isinstance(file, int):
        descriptor = _above_streams(file)
    else:
        opened = os.open(file, flags)
        try:
            descriptor = _above_streams(opened)
        finally:
            os.close(opened)
    try:
        if not stat.S_ISREG(os.fstat(descriptor).st_mode):
            raise ValueError(f"{file} is no regular file")
        _hold(descriptor)
    except BlockingIOError as error:
        os.close(descriptor)
        raise BlockingIOError(error.errno, "another program uses the card", file) from None
    except BaseException:
        os.close(descriptor)
        raise
    return descriptor


def _words_of(descriptor: int) -> array[int]:
    """The words of an image."""
    image = os.pread(descriptor, 4 * MOST_WORDS + 1, 0)
    if len(image) % 4 != 0:
        raise CardError(Outcome.SIZE)
    words = array("I", image)
    if sys.byteorder == "little":
        words.byteswap()
    return words


class _Single:
    """An object that no copy stands for: two would share a memory and a file, and give tries of PINs twice."""

    def __reduce__(self) -> NoReturn:
        raise TypeError(f"a {type(self).__name__} can't be copied")


class Card(_Single):
    """A card, with its memory and its end of the link.

    >>> with Card(pages=4096) as card:
    ...     card.state()
    <State: 0>
    """

    def __init__(self, words: Sequence[int] | None = None, *, pages: int = PAGES):
        """The card whose memory has these words, or the factory card on a memory of so many pages; with power off."""
        self._lock = threading.Lock()
        self._at, self._device, self._process = ctypes.c_void_p(), -1, os.getpid()
        if words is None:
            _check(_library.soffitfennel_factory(self._at, _number(pages)))
        else:
            self._insert(words)

    def _insert(self, words: Sequence[int]) -> None:
        """Makes the card of words, with the device that was opened."""
        if any(not 0 <= word < 1 << 32 for word in words):
            raise ValueError("a word has 32 bits")
        image = (ctypes.c_uint32 * max(1, len(words)))(*words)
        if self._device < 0:
            _check(_library.soffitfennel_insert(self._at, image, len(words)))
        else:
            _check(_library.soffitfennel_attach(self._at, image, len(words), self._device))

    @classmethod
    def attach(cls, file: File, *, sync: bool = False) -> Card:
        """The card whose image is in a file (a path, or a descriptor that is open for writing), with power off.

        The file gets each device write before the call returns. The card has a descriptor of its own, and a lock on the
        file, until it is closed. With sync the disk has each write before the next one; else a loss of power of the
        machine can leave no card in the file."""
        card = cls.__new__(cls)
        card._lock, card._at, card._process = threading.Lock(), ctypes.c_void_p(), os.getpid()
        card._device = _open(file, sync)
        try:
            card._insert(_words_of(card._device))
        except BaseException:
            card.close()
            raise
        return card

    def __enter__(self) -> Card:
        return self

    def __exit__(self, kind: type[BaseException] | None, error: BaseException | None, at: TracebackType | None) -> None:
        self.close()

    def __del__(self) -> None:
        if hasattr(self, "_device"):
            self.close()

    def close(self) -> None:
        """Ends the card, frees its memory, and closes its file."""
        with self._lock:
            device, self._device = self._device, -1
            _library.soffitfennel_free(self._at)
            if device >= 0:
                _close(device)

    def _call(self, by: Callable[..., int], *given: Any) -> None:
        """A call of the library, one at a time."""
        with self._lock:
            if not self._at:
                raise ValueError("the card is closed")
            if self._device >= 0 and self._process != os.getpid():
                raise ValueError("a child of fork has no card in a file: close it, and attach the file again")
            _check(by(self._at, *given))

    def power_on(self) -> bytes:
        """Switches power on, after power off if it is on; the answer to reset."""
        self._call(_library.soffitfennel_power_on)
        return ATR

    def power_off(self) -> None:
        """Switches power off."""
        self._call(_library.soffitfennel_power_off)

    def _exchange(self, by: Callable[..., int], sent: Bytes) -> bytes:
        whole, got, size = _whole(sent), ctypes.create_string_buffer(ROOM), ctypes.c_size_t()
        self._call(by, whole, len(whole), got, ROOM, size)
        return got.raw[: size.value]

    def transmit(self, command: Bytes) -> bytes:
        """Sends a command; its answer, with the two status bytes."""
        return self._exchange(_library.soffitfennel_command, command)

    def block(self, block: Bytes) -> bytes:
        """Sends a block of T=1 straight to the card's end; the block that it sends back."""
        return self._exchange(_library.soffitfennel_block, block)

    def cut(self, number: int, mask: int) -> None:
        """Sets a power cut for a later device write. Bit i of the mask says whether word i of the write is new."""
        self._call(_library.soffitfennel_cut, _number(number), _number(mask, 0xFFFF))

    def lose(self, number: int) -> None:
        """Sets the block that the line loses in a later command."""
        self._call(_library.soffitfennel_lose, _number(number))

    def garble(self, number: int) -> None:
        """Sets the block that the line garbles in a later command."""
        self._call(_library.soffitfennel_garble, _number(number))

    def clear_faults(self) -> None:
        """Takes back each fault that is pending, and switches power off."""
        self._call(_library.soffitfennel_clear_faults)

    def state(self) -> State:
        """What holds of the card."""
        state = ctypes.c_uint32()
        self._call(_library.soffitfennel_state, state)
        return State(state.value)

    def free_space(self) -> FreeSpace:
        """The free space."""
        blocks, entries = ctypes.c_uint16(), ctypes.c_uint16()
        self._call(_library.soffitfennel_free_space, blocks, entries)
        return FreeSpace(blocks.value, entries.value)

    def words(self) -> list[int]:
        """The memory's words."""
        words, size = (ctypes.c_uint32 * MOST_WORDS)(), ctypes.c_size_t()
        self._call(_library.soffitfennel_words, words, MOST_WORDS, size)
        return words[: size.value]


class Reader(_Single):
    """A reader's end of T=1: it makes blocks of a command, and an answer of the card's blocks.

    >>> with Card() as card, Reader() as reader:
    ...     atr = card.power_on()
    ...     reader.transmit(bytes.fromhex("00A4000C022FE2"), card.block)
    ...     reader.command(bytes.fromhex("00B000000A")).hex().upper()
    b'\\x90\\x00'
    '00400500B000000AFF'
    """

    def __init__(self) -> None:
        """A reader as after power-on."""
        self._lock, self._at = threading.Lock(), ctypes.c_void_p()
        _check(_library.soffitfennel_reader_new(self._at))

    def __enter__(self) -> Reader:
        return self

    def __exit__(self, kind: type[BaseException] | None, error: BaseException | None, at: TracebackType | None) -> None:
        self.close()

    def __del__(self) -> None:
        if hasattr(self, "_at"):
            self.close()

    def close(self) -> None:
        """Ends the reader, and frees its memory."""
        with self._lock:
            _library.soffitfennel_reader_free(self._at)

    def _turn(self, by: Callable[..., int], sent: Bytes) -> tuple[Outcome, bytes]:
        """A call that returns a block to send, or the answer."""
        whole, got, size = _whole(sent), ctypes.create_string_buffer(ROOM), ctypes.c_size_t()
        with self._lock:
            if not self._at:
                raise ValueError("the reader is closed")
            outcome = by(self._at, whole, len(whole), got, ROOM, size)
        if outcome not in (Outcome.SEND, Outcome.DONE):
            raise CardError(outcome)
        return Outcome(outcome), got.raw[: size.value]

    def command(self, command: Bytes) -> bytes:
        """Begins a command of 1 to 261 bytes; its first block."""
        return self._turn(_library.soffitfennel_reader_command, command)[1]

    def receive(self, block: Bytes) -> tuple[Outcome, bytes]:
        """Takes what the card sent, or b"" if nothing came in time; SEND with the next block, or DONE with the answer.

        An error RESYNCHED says that the command may have run. After LOST and BAD_ANSWER reset card and reader."""
        return self._turn(_library.soffitfennel_reader_receive, block)

    def transmit(self, command: Bytes, exchange: Callable[[bytes], Bytes], most_blocks: int = 500) -> bytes:
        """Sends a command; its answer, with the two status bytes. exchange sends a block, and returns the card's block,
        or b"" if none came in time. An error SEND says that the card sent so many blocks, and no whole answer."""
        outcome, given = Outcome.SEND, self.command(command)
        for _ in range(most_blocks):
            outcome, given = self.receive(exchange(given))
            if outcome == Outcome.DONE:
                return given
        raise CardError(outcome)

    def reset(self) -> None:
        """Sets the reader back to its state after power-on, as a reset does with the card."""
        with self._lock:
            if not self._at:
                raise ValueError("the reader is closed")
            _check(_library.soffitfennel_reader_reset(self._at))


def _whole(sent: Bytes) -> bytes:
    """The bytes that a call gets."""
    if not isinstance(sent, (bytes, bytearray, memoryview)):
        raise TypeError(f"bytes are wanted, as bytes.fromhex('00A4') gives them, not {type(sent).__name__}")
    return bytes(sent)


def _number(number: int, most: int = 0xFFFF_FFFF) -> int:
    """A number that C can take, since ctypes drops the higher bits of a larger one."""
    if not 0 <= number <= most:
        raise CardError(Outcome.SIZE)
    return number
