"""A card that is described and not laid out yet: its files, its PINs, and what a description says of each."""
from __future__ import annotations

import secrets
from collections.abc import Callable, Iterator
from dataclasses import dataclass, field
from typing import TypeVar

from ..card_image import layout
from ..card_image.rules import MOST_CAPACITY, MOST_NAME, MOST_RECORD, MOST_SHORT, MOST_SIZE, MOST_STEPS
from ..card_image.rules import MOST_TRIES, MOST_UNBLOCKING

from .rule_text import rule_of

R = TypeVar("R")
STATES = {"creation": 1, "initialisation": 3, "deactivated": 4, "activated": 5, "terminated": 0x0C}
KINDS = {"df": layout.DIRECTORY, "transparent": layout.TRANSPARENT, "linear": layout.LINEAR, "cyclic": layout.CYCLIC}
MF = "3F00"
PIN_BYTES = 8


class Wrong(Exception):
    """What is wrong in a description; the one that knows the line adds it."""

    def __init__(self, why: str, line: int = 0):
        super().__init__(why)
        self.line = line


@dataclass
class FileDraft:
    """A file of the description."""

    line: int
    path: str
    kind: int
    size: int = 0
    record_length: int = 0
    state: int = STATES["activated"]
    rule: bytes = b""
    short: int = 0
    name: bytes = b""
    body: bytes = b""
    records: list[bytes] = field(default_factory=list)
    number: int | None = None

    @property
    def is_directory(self) -> bool:
        return self.kind == layout.DIRECTORY

    @property
    def has_records(self) -> bool:
        return self.kind in (layout.LINEAR, layout.CYCLIC)

    @property
    def capacity(self) -> int:
        return self.size // self.record_length if self.record_length else 0

    @property
    def existing(self) -> int:
        """How many records exist."""
        return len(self.records) if self.number is None else self.number

    @property
    def parent(self) -> str:
        return self.path.rpartition("/")[0]

    def content(self) -> bytes:
        """All bytes of the body; what isn't described is FF."""
        given = (
            b"".join(it.ljust(self.record_length, b"\xff") for it in self.records) if self.has_records else self.body
        )
        return given.ljust(self.size, b"\xff")

    def put(self, key: str, value: str) -> None:
        """Sets what a line of the description says."""
        if key == "rule":
            self.rule = rule_of(value, self.is_directory)
        elif key == "state":
            self.state = one_of(STATES, value, "state")
        elif key == "short" and not self.is_directory:
            self.short = number(value, 1, MOST_SHORT, "the short identifier")
        elif key == "name" and self.is_directory:
            self.name = octets(value)
        elif key == "content" and self.kind == layout.TRANSPARENT:
            self.body += octets(value)
        elif key == "record" and self.has_records:
            self.records.append(octets(value))
        elif key == "records" and self.has_records:
            self.number = number(value, 0, MOST_CAPACITY, "the number of records")
        else:
            raise Wrong(f"{self.kind_name} has no '{key}'")

    @property
    def kind_name(self) -> str:
        return "a DF" if self.is_directory else f"a {next(k for k, v in KINDS.items() if v == self.kind)} EF"

    def check(self) -> None:
        """Refuses what no card can have."""
        if not self.rule:
            raise Wrong(f"{self.path} has no rule: nobody could use it")
        if len(self.name) > MOST_NAME:
            raise Wrong(f"a name has at most {MOST_NAME} bytes, and this one {len(self.name)}")
        if self.path.count("/") > MOST_STEPS:
            raise Wrong(f"{self.path} lies deeper than {MOST_STEPS} levels below the MF")
        if len(self.body) > self.size:
            raise Wrong(f"{self.path} has {self.size} bytes, and its content {len(self.body)}")
        if self.has_records:
            self.check_records()

    def check_records(self) -> None:
        """Refuses records that have no room."""
        for it in self.records:
            if len(it) > self.record_length:
                raise Wrong(f"a record of {self.path} has {self.record_length} bytes, and one that is given {len(it)}")
        if len(self.records) > self.existing:
            raise Wrong(f"{self.path}: {len(self.records)} records are given, and 'records' says {self.existing}")
        if self.existing > self.capacity:
            raise Wrong(f"{self.path} has room for {self.capacity} records, and not for {self.existing}")


@dataclass
class PinDraft:
    """A PIN of the description."""

    line: int
    number: int
    value: bytes = b""
    puk: bytes = b""
    tries: int = MOST_TRIES
    puk_tries: int = MOST_UNBLOCKING
    is_enabled: bool = True

    def put(self, key: str, value: str) -> None:
        """Sets what a line of the description says."""
        if key == "value":
            self.value = secrets.token_bytes(PIN_BYTES) if value == "random" else padded(value)
        elif key == "puk":
            self.puk = b"%08d" % secrets.randbelow(10**PIN_BYTES) if value == "random" else padded(value)
        elif key == "tries":
            self.tries = number(value, 0, MOST_TRIES, "the number of tries")
        elif key == "puk-tries":
            self.puk_tries = number(value, 0, MOST_UNBLOCKING, "the number of unblocking tries")
        elif key == "state":
            self.is_enabled = one_of({"enabled": True, "disabled": False}, value, "state")
        else:
            raise Wrong(f"a PIN has no '{key}'")

    def block(self) -> None:
        """Closes the PIN for good: no tries, and values that nobody knows."""
        self.value, self.puk = secrets.token_bytes(PIN_BYTES), secrets.token_bytes(PIN_BYTES)
        self.tries = self.puk_tries = 0

    def check(self) -> None:
        """Refuses a PIN without its values."""
        for what, value in (("value", self.value), ("puk", self.puk)):
            if len(value) != PIN_BYTES:
                raise Wrong(f"PIN {self.number} has no {what}: give its line, 'random', or 'pin {self.number} blocked'")


@dataclass
class Draft:
    """A whole card."""

    pages: int = layout.LEAST_PAGES
    is_terminated: bool = False
    files: list[FileDraft] = field(default_factory=list)
    pins: dict[int, PinDraft] = field(default_factory=dict)

    def add_file(self, draft: FileDraft) -> FileDraft:
        """Adds a file, whose DF has to be there."""
        if any(it.path == draft.path for it in self.files):
            raise Wrong(f"{draft.path} is described twice")
        if not self.files and (draft.path != MF or not draft.is_directory):
            raise Wrong(f"the first file has to be the MF: 'file {MF} df'")
        if self.files and not any(it.path == draft.parent and it.is_directory for it in self.files):
            raise Wrong(f"no DF {draft.parent or MF} is described above {draft.path}")
        if len(self.files) == layout.ENTRIES:
            raise Wrong(f"a card has at most {layout.ENTRIES} files, and {draft.path} is one more")
        self.files.append(draft)
        return draft

    def add_pin(self, draft: PinDraft) -> PinDraft:
        """Adds a PIN."""
        if draft.number in self.pins:
            raise Wrong(f"PIN {draft.number} is described twice")
        return self.pins.setdefault(draft.number, draft)

    def parts(self) -> Iterator[FileDraft | PinDraft]:
        """All files and PINs."""
        yield from self.files
        yield from self.pins.values()

    def check(self) -> None:
        """Refuses what is no card, with the line that says so."""
        for part in self.parts():
            with_line(part.line, part.check)
        missing = [str(it) for it in range(1, layout.PINS + 1) if it not in self.pins]
        if not self.files:
            raise Wrong("no file is described: a card has at least its MF")
        if missing:
            raise Wrong(f"PIN {missing[0]} isn't described: 'pin {missing[0]} blocked' closes one that nobody needs")
        with_line(0, self.check_twins)
        self.check_room()

    def check_twins(self) -> None:
        """Refuses two files with one identifier of their DF, or with one name."""
        seen: dict[tuple[str, object], FileDraft] = {}
        for it in self.files:
            for key in [(it.parent, it.short)] * bool(it.short) + [("name", it.name)] * bool(it.name):
                if earlier := seen.get(key):
                    what = "name" if key[0] == "name" else f"short identifier {it.short}"
                    raise Wrong(f"{it.path} has the {what} of {earlier.path}", it.line)
                seen[key] = it

    def check_room(self) -> None:
        """Refuses what has no blocks."""
        left = self.pages - layout.BLOCK_PAGE
        for it in self.files:
            left -= layout.blocks_of(it.size)
            if left < 0:
                raise Wrong(
                    f"{it.path} has no room: it lacks {-left} blocks; 'pages N' gives up to 4096 pages", it.line
                )


def with_line(line: int, call: Callable[..., R], *words: object) -> R:
    """What a call gives; its complaint gets this line, unless it names one."""
    try:
        return call(*words)
    except (Wrong, ValueError) as why:
        raise Wrong(str(why), getattr(why, "line", 0) or line) from None


def one_of(known: dict[str, R], word: str, what: str) -> R:
    """The value of a word that is known."""
    if word.lower() not in known:
        raise Wrong(f"{what} '{word}' is none of: {', '.join(known)}")
    return known[word.lower()]


def number(text: str, least: int, most: int, what: str) -> int:
    """A number within its limits."""
    if not (text.isascii() and text.isdigit() and len(text) < 9 and least <= int(text) <= most):
        raise Wrong(f"{what} is a number from {least} to {most}, and not '{text}'")
    return int(text)


def octets(text: str) -> bytes:
    """Bytes in hexadecimal digits, or a text in quotes."""
    if len(text) >= 2 and text[0] == text[-1] == '"' and '"' not in text[1:-1]:
        return text[1:-1].encode("utf-8")
    digits = "".join(text.split(" "))
    if not digits.isascii() or not digits.isalnum() or len(digits) % 2:
        raise Wrong("bytes are pairs of hexadecimal digits, or a text in quotes")
    try:
        return bytes.fromhex(digits)
    except ValueError:
        raise Wrong("bytes are pairs of hexadecimal digits, or a text in quotes") from None


def padded(text: str) -> bytes:
    """The eight bytes of a PIN; a shorter text is padded with FF, as VERIFY has it."""
    given = octets(text)
    if not 1 <= len(given) <= PIN_BYTES or (text[0] != '"' and len(given) < PIN_BYTES):
        raise Wrong(
            f"a PIN has {PIN_BYTES} bytes in hexadecimal digits, or a text of at most {PIN_BYTES} bytes in quotes"
        )
    return given.ljust(PIN_BYTES, b"\xff")


def file_draft(line: int, path: str, kind: str, size: str) -> FileDraft:
    """A file from the words of its first line: PATH KIND, and SIZE, or LENGTH x RECORDS."""
    parts = path.upper().split("/")
    if any(len(it) != 4 or not set(it) <= set("0123456789ABCDEF") for it in parts) or parts[0] != MF:
        raise Wrong(f"a path is {MF} and the identifiers below it, such as {MF}/7F10/6F3A, and not '{path}'")
    made = FileDraft(line, "/".join(parts), one_of(KINDS, kind, "kind"))
    words = size.split()
    if made.is_directory:
        if words:
            raise Wrong("a DF has no size")
    elif made.kind == layout.TRANSPARENT:
        made.size = number(size, 1, MOST_SIZE, "the size of a transparent EF")
    elif len(words) != 3 or words[1] != "x":
        raise Wrong(f"{made.kind_name} has a size such as '28 x 10': the length of a record, and how many have room")
    else:
        made.record_length = number(words[0], 1, MOST_RECORD, "the length of a record")
        made.size = made.record_length * number(words[2], 1, MOST_CAPACITY, "the room for records")
        number(str(made.size), 1, MOST_SIZE, "the size of a record EF")
    return made
