"""Names for the common commands, and the line of a script that each stands for: "select 2FE2" is "apdu 00A4000C022FE2".

The bytes are those of docs/CARD.md, "Commands"."""

from __future__ import annotations

import re
from collections.abc import Callable
from dataclasses import dataclass

# the largest offset, size and number of bytes that a command takes
MOST_OFFSET, MOST_SIZE, MOST_DATA = 32_767, 32_767, 255
PINS = range(1, 9)
PIN_BYTES = 8
# the low bits of P2: which record
BY_NUMBER, NEXT, PREVIOUS = "04", "02", "03"
# access mode byte and conditions of a file that everybody may use in every way
OPEN_RULE = "7F" + "00" * 7
DESCRIPTORS = {"transparent": "4121", "linear": "4221", "cyclic": "4621"}


class Unclear(Exception):
    """Words that don't make a command, and why."""


def number(word: str, least: int, most: int) -> int:
    """A decimal number within these bounds."""
    if not re.fullmatch(r"[0-9]{1,6}", word) or not least <= int(word) <= most:
        raise Unclear(f"{word} is no number from {least} to {most}")
    return int(word)


def identifier(word: str) -> str:
    """The four digits of a file's identifier."""
    if not re.fullmatch(r"[0-9A-Fa-f]{4}", word):
        raise Unclear(f"{word} is no file identifier of four hexadecimal digits")
    return word.upper()


def data(words: list[str]) -> str:
    """The bytes of a command, with the byte that counts them."""
    digits = "".join(words).upper()
    if not re.fullmatch(r"([0-9A-F]{2})+", digits) or len(digits) > 2 * MOST_DATA:
        raise Unclear(f"the data are 1 to {MOST_DATA} bytes, each of two hexadecimal digits")
    return f"{len(digits) // 2:02X}{digits}"


def secret(word: str) -> str:
    """The eight bytes of a PIN or a PUK: up to eight characters, filled with FF, or sixteen hexadecimal digits."""
    if re.fullmatch(r"[0-9A-Fa-f]{16}", word):
        return word.upper()
    if len(word) > PIN_BYTES or not word.isascii():
        raise Unclear(f"{word} has more than {PIN_BYTES} characters, and is not 16 hexadecimal digits")
    return word.encode("ascii").hex().upper().ljust(2 * PIN_BYTES, "F")


def of_file(words: list[str], answer: str, expected: str) -> str:
    """SELECT of a file by its identifier, its path from the MF or its name, of the parent, or of the MF."""
    if not words:
        return f"00A400{answer}{expected}"
    if words == [".."]:
        return f"00A403{answer}{expected}"
    if words[0] == "name":
        return f"00A404{answer}{data(words[1:])}{expected}"
    if "/" in words[0]:
        path = "".join(identifier(it) for it in words[0].split("/") if it)
        return f"00A408{answer}{data([path])}{expected}"
    return f"00A400{answer}{data([identifier(words[0])])}{expected}"


def read(words: list[str]) -> str:
    """READ BINARY."""
    offset = number(words[0], 0, MOST_OFFSET) if words else 0
    count = number(words[1], 1, 256) if len(words) > 1 else 256
    return f"00B0{offset:04X}{count % 256:02X}"


def write(words: list[str]) -> str:
    """UPDATE BINARY."""
    return f"00D6{number(words[0], 0, MOST_OFFSET):04X}{data(words[1:])}"


def place(word: str) -> str:
    """P1 P2 for a record, by its number or from the record pointer."""
    modes = {"next": f"00{NEXT}", "previous": f"00{PREVIOUS}", "current": f"00{BY_NUMBER}"}
    return modes.get(word) or f"{number(word, 1, 254):02X}{BY_NUMBER}"


def create(words: list[str]) -> str:
    """CREATE FILE, with a rule that allows everything."""
    file, kind, *rest = words
    begin, end = f"8302{identifier(file)}", f"8A01058C08{OPEN_RULE}"
    if kind == "directory":
        name = f"84{data(rest)}" if rest else ""
        objects = f"82027821{begin}{name}{end}"
    elif kind == "transparent" and len(rest) == 1:
        objects = f"8202{DESCRIPTORS[kind]}{begin}8002{number(rest[0], 1, MOST_SIZE):04X}{end}"
    elif kind in ("linear", "cyclic") and len(rest) == 2:
        length, count = number(rest[0], 1, 255), number(rest[1], 1, 254)
        size = number(str(length * count), 1, MOST_SIZE)
        objects = f"8204{DESCRIPTORS[kind]}{length:04X}{begin}8002{size:04X}{end}"
    else:
        raise Unclear("the kind is transparent SIZE, linear LENGTH COUNT, cyclic LENGTH COUNT, or directory [NAME]")
    return f"00E00000{data([f'62{len(objects) // 2:02X}{objects}'])}"


def terminate(words: list[str]) -> str:
    """TERMINATE EF, DF or CARD USAGE."""
    instructions = {"file": "E8", "directory": "E6", "card": "FE"}
    if words[0] not in instructions or words[0] == "card" and len(words) > 1:
        raise Unclear("what ends is file [FILE], directory [FILE], or card")
    return f"00{instructions[words[0]]}0000" + named(words[1:])


def named(words: list[str]) -> str:
    """The identifier of a file, or nothing for the current one."""
    return data([identifier(words[0])]) if words else ""


def on_pin(instruction: str) -> Callable[[list[str]], str]:
    """A command on a PIN, with the values that follow its number."""

    def make(words: list[str]) -> str:
        given = "".join(secret(it) for it in words[1:])
        return f"00{instruction}00{number(words[0], PINS[0], PINS[-1]):02X}" + (data([given]) if given else "")

    return make


@dataclass(frozen=True)
class Name:
    """A name: the words that follow it, what it does, how many words it takes at least and at most, and its command."""

    usage: str
    about: str
    least: int
    most: int
    make: Callable[[list[str]], str]


MANY = 1_000
NAMES = {
    "select": Name("[FILE]", "SELECT; the master file without a word", 0, 2, lambda it: of_file(it, "0C", "")),
    "info": Name("[FILE]", "SELECT, with the file's template", 0, 2, lambda it: of_file(it, "04", "00")),
    "read": Name("[OFFSET [COUNT]]", "READ BINARY; all bytes without a word", 0, 2, read),
    "write": Name("OFFSET HEX", "UPDATE BINARY", 2, MANY, write),
    "record": Name("RECORD", "READ RECORD", 1, 1, lambda it: f"00B2{place(it[0])}00"),
    "update": Name("RECORD HEX", "UPDATE RECORD", 2, MANY, lambda it: f"00DC{place(it[0])}{data(it[1:])}"),
    "append": Name("HEX", "APPEND RECORD", 1, MANY, lambda it: f"00E20000{data(it)}"),
    "search": Name("HEX", "SEARCH RECORD, from record 1 on", 1, MANY, lambda it: f"00A20104{data(it)}00"),
    "increase": Name("HEX", "INCREASE", 1, MANY, lambda it: f"80320000{data(it)}00"),
    "create": Name("FILE KIND ..", "CREATE FILE, with a rule that allows everything", 2, MANY, create),
    "delete": Name("[FILE]", "DELETE FILE", 0, 1, lambda it: f"00E40000{named(it)}"),
    "activate": Name("[FILE]", "ACTIVATE FILE", 0, 1, lambda it: f"00440000{named(it)}"),
    "deactivate": Name("[FILE]", "DEACTIVATE FILE", 0, 1, lambda it: f"00040000{named(it)}"),
    "terminate": Name("WHAT [FILE]", "TERMINATE EF, TERMINATE DF, TERMINATE CARD USAGE", 1, 2, terminate),
    "verify": Name("NUMBER PIN", "VERIFY", 2, 2, on_pin("20")),
    "tries": Name("NUMBER", "VERIFY without data, which asks for the tries", 1, 1, on_pin("20")),
    "change": Name("NUMBER OLD NEW", "CHANGE REFERENCE DATA", 3, 3, on_pin("24")),
    "unblock": Name("NUMBER PUK NEW", "RESET RETRY COUNTER", 3, 3, on_pin("2C")),
    "disable": Name("NUMBER PIN", "DISABLE VERIFICATION REQUIREMENT", 2, 2, on_pin("26")),
    "enable": Name("NUMBER PIN", "ENABLE VERIFICATION REQUIREMENT", 2, 2, on_pin("28")),
}


def line_for(text: str) -> str | None:
    """The line of a script that a named command, or a command in bare digits, stands for; None for any other line."""
    name, *words = text.split()
    if re.fullmatch(r"[0-9A-Fa-f]{4,}", "".join([name, *words])):
        return f"apdu {''.join([name, *words]).upper()}"
    known = NAMES.get(name)
    if not known:
        return None
    if not known.least <= len(words) <= known.most:
        raise Unclear(f"{name} {known.usage}, which stands for an apdu line")
    return f"apdu {known.make(words)}"
