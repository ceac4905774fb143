"""A few words for what a script's line asks of the card and what it prints, by the tables in words/.

They help a person to read a log; what the card does is in docs/CARD.md. Which files there are and which is current is
followed by the answers, as a reader of the log would; what the log doesn't show is asked of a second card."""
from __future__ import annotations

from collections.abc import Callable, Sequence
from pathlib import Path

from .explaining.commands import BINARY, LIFE_CYCLE, OF_AN_EF, OF_PINS, RECORD, Command
from .explaining.files import CARRIED_OUT, MASTER_FILE, Files, named
from .explaining.reasons import Case
from .explaining.templates import Template, count
from .explaining.twin import Twin

TABLE = Path(__file__).resolve().parent.parent / "words" / "card.table"
# the card's PINs have the references 01 to 08; others are told as P2 has them
PINS = 8
# the low bits of P2 of READ and UPDATE RECORD
RECORD_MODES = {2: "next record", 3: "previous record"}


def read_table() -> dict[str, dict[str, str]]:
    """The table: of each kind of thing its words by its key, in the order of the file."""
    table: dict[str, dict[str, str]] = {}
    for line in TABLE.read_text(encoding="utf-8").splitlines():
        if line and not line.startswith("#"):
            kind, key, words = line.split(" ", 2)
            table.setdefault(kind, {})[key] = words
    return table


class Log:
    """What is known of the card from the lines so far."""

    def __init__(self, program: Sequence[str] = ()):
        self.table = read_table()
        self.files, self.twin = Files(), Twin(list(program))
        self.twin.begin(self.files)

    def took(self, line: str) -> None:
        """A line that the card was given, before it is explained."""
        self.twin.took(line)

    def printed(self, line: str, answer: str) -> str:
        """The words for what a line of the script printed."""
        order, _, digits = line.partition(" ")
        kind, _, value = answer.partition(" ")
        if kind == "free":
            blocks, entries = value.split(" ")
            return f"{count(int(blocks), 'block')} and {entries} entries are free"
        if order == "on":
            self.files.power()
            if self.files.is_doubtful and kind == "atr":
                self.twin.refresh(self.files)
        given = bytes.fromhex(digits) if order in ("apdu", "block") else b""
        if kind == "<" and order == "block":
            return self.blocks(given, bytes.fromhex(value))
        if kind == "<":
            return self.exchange(given, value)
        words = self.table["answer"].get(kind, "")
        if order != "apdu":
            return words
        asked = self.command(given)
        if kind != "mute":
            self.files.cut(Command(given))
        return f"{asked}: {words}"

    def blocks(self, given: bytes, reply: bytes) -> str:
        """A block and its reply; a whole command in them is followed."""
        words = f"{self.block(given, self.command)}; the reply: {self.block(reply, self.response)}"
        if is_whole(given) and is_whole(reply):
            self.follow(Command(given[3:-1]), reply[-3:-1].hex().upper())
        return words

    def exchange(self, given: bytes, answer: str) -> str:
        """A command and its answer; what it makes the current file is kept."""
        it, status, data = Command(given), answer[-4:], bytes.fromhex(answer[:-4])
        asked, name = self.command(given), self.table["command"].get(it.key, "")
        because = None if status == "9000" else Case(it, status, self.files, self.twin, self.table).why()
        self.follow(it, status)
        words = self.status(status).replace(f"{name}: ", "")
        if because:
            words = because[1:] if because.startswith("=") else f"{words}: {because}"
        if it.key == "00A4" and data[:1] == b"\x62":
            words = f"{words}; {Template(data).in_words()}"
        return f"{asked}: {words}"

    def follow(self, it: Command, status: str) -> None:
        """What a command that was carried out changes for those behind it."""
        if status in CARRIED_OUT and not it.fault:
            self.files.carried_out(it)

    def status(self, word: str) -> str:
        """A status word in words."""
        if word[:3] == "63C":
            tries = int(word[3], 16)
            return "1 try is left" if tries == 1 else self.table["status"]["63CX"].replace("X", str(tries))
        if word[:2] == "6C":
            return self.table["status"]["6CXX"].replace("XX", word[2:])
        return self.table["status"].get(word, f"status {word}")

    def response(self, data: bytes) -> str:
        """The bytes of an answer: its status, and how many bytes stand before it."""
        before = f"{count(len(data) - 2, 'byte')}, " if len(data) > 2 else ""
        return before + self.status(data[-2:].hex().upper()) if len(data) >= 2 else count(len(data), "byte")

    def command(self, given: bytes) -> str:
        """A command by its name, file, record or offset."""
        it = Command(given)
        name = self.table["command"].get(it.key)
        if it.fault == "header":
            return f"a command of {count(len(given), 'byte')}"
        if name is None:
            return f"no known command {given[:4].hex().upper()}"
        if it.fault:
            return name
        return ", ".join(filter(None, [f"{name} {self.file(it)}".rstrip(), *self.details(it)]))

    def file(self, it: Command) -> str:
        """The file that a command is for, as far as the log tells."""
        if it.key == "00A4":
            return selected(it)
        if it.key == "00E0":
            return Template(it.data).identifier
        if it.key in OF_PINS:
            return f"PIN {it.p2}" if 1 <= it.p2 <= PINS else f"PIN {it.p2:02X}"
        if it.key == "00FE":
            return ""
        if it.key in ("00E4", *LIFE_CYCLE) and it.data:
            return it.data.hex().upper()
        short = it.short_identifier()
        if short:
            return f"short identifier {short}"
        return named(self.files.element if it.key in (*OF_AN_EF, "00E8") else self.files.target(it)) or ""

    def details(self, it: Command) -> list[str]:
        """Offset, record, number of bytes, or kind of file."""
        if it.key in BINARY:
            return [f"offset {it.offset()}", amount(it)]
        if it.key in RECORD:
            return [record(it)]
        if it.key == "00E2":
            return [count(len(it.data), "byte")]
        if it.key == "00A2":
            way = "backward" if it.p2 & 7 == 5 else "forward"
            begin = f"record {it.p1}" if it.p1 else "the current record"
            return [f"{way} from {begin}", f"text {it.data.hex().upper()}" if it.data else ""]
        if it.key == "8032":
            return [f"by {it.data.hex().upper()}" if it.data else ""]
        if it.key == "00E0":
            return [Template(it.data).kind]
        return ["its tries are asked"] if it.key in ("0020", "002C") and not it.data else []

    def block(self, given: bytes, inner: Callable[[bytes], str]) -> str:
        """A block of T=1 by its kind; what a whole I-block carries is told by `inner`."""
        if len(given) < 4 or given[2] != len(given) - 4:
            return "a block of a wrong length"
        check = 0
        for byte in given:
            check ^= byte
        if check or given[0]:
            return "a block with a wrong check byte" if check else f"a block with node address {given[0]:02X}"
        control = given[1]
        if control < 0x80:
            more = "more follows" if control & 0x20 else inner(given[3:-1])
            return f"I-block {control >> 6 & 1}, {more}"
        if control < 0xC0:
            why = {0: "", 1: ", the check byte was wrong", 2: ", something else was wrong"}.get(control & 0xF, "")
            return f"R-block {control >> 4 & 1}{why}"
        words = self.table["block"].get(f"{control:02X}", f"{control:02X}")
        return f"S-block, {words}" + (f" {given[3]}" if len(given) == 5 else "")


def is_whole(block: bytes) -> bool:
    """Whether it is an I-block that carries a whole command or answer."""
    return len(block) > 4 and block[1] & 0xA0 == 0 and block[2] == len(block) - 4


def selected(it: Command) -> str:
    """What SELECT is given: an identifier, a path, a name, or none."""
    digits = it.data.hex().upper()
    if it.p1 == 3:
        return "the parent"
    if it.p1 == 4:
        return f"name {digits}"
    if it.p1 in (8, 9):
        return "/".join(digits[at : at + 4] for at in range(0, len(digits), 4))
    return digits or MASTER_FILE


def amount(it: Command) -> str:
    """How many bytes are sent, or asked for."""
    if it.data:
        return count(len(it.data), "byte")
    if it.expected is None:
        return "no Le"
    return count(it.expected, "byte") if it.expected else "all bytes"


def record(it: Command) -> str:
    """Which record READ or UPDATE RECORD is for."""
    if it.p2 & 7 == 4 and it.p1:
        return f"record {it.p1}"
    return RECORD_MODES.get(it.p2 & 7, "current record")
