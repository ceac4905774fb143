"""The lines of a script: which are of the language, and what is wrong with the others.

docs/SCRIPT.md has the rules, and the program alone decides what is run. The functions here say why a line is refused,
for bad-line, good-lines, apdu-lines, run-tests and prompt of tools/bench. tools/tests/test-lines compares them with the
program."""
from __future__ import annotations

import difflib
import re
import unicodedata
from collections.abc import Iterator
from functools import lru_cache
from pathlib import Path
from typing import BinaryIO, TextIO


def read_orders(path: Path) -> tuple[dict[str, str], tuple[str, ...]]:
    """The operands of each order of a script, and the orders that print."""
    lines = [it.strip() for it in path.read_text(encoding="utf-8").splitlines()]
    rows = [re.split(r"  +", it) for it in lines if it and it[0] != "#"]
    return {order: of.replace("-", "") for order, of, _ in rows}, tuple(it[0] for it in rows if it[2] == "prints")


# what other programs call an order, and how the bench says it
OTHER_WORDS = Path(__file__).resolve().parent.parent / "words" / "orders.table"
LONGEST_LINE = 1024
# of a line that is longer no more than this need be kept: it is a bad line, whatever follows
MOST_KEPT = LONGEST_LINE + 2
MOST_BYTES = {"apdu": 261, "block": 300}
# each order with its operands, and those that print a line
OPERANDS, ORDERS_THAT_PRINT = read_orders(Path(__file__).resolve().parent.parent / "words" / "lines.table")
ORDERS = tuple(OPERANDS)
# how comments begin in other languages
OTHER_COMMENTS = ("//", "/*", "--", ";", "%", "!", "'")
BEHIND_A_COMMAND = "a comment stands behind a command: a comment is a line of its own that begins with #"
DIGITS = re.compile(r"[0-9A-Fa-f]*")
# what the bench prints, which is no order
ANSWER = re.compile(r"(<|atr [0-9A-F]+|mute|dark|lost)( |$)|free [0-9]+ [0-9]+$")
# a word with a sign behind it
SIGN = re.compile(r"([a-z]+)([^a-z0-9_ ])")
# how a command and its status begin on one line
WITH_STATUS = re.compile(r"[0-9A-Fa-f]{8,} (?:9000|6[1-9A-Ea-e][0-9A-Fa-f]{2}|6[Ff]00)")
# what a card's memory in a file is
IMAGE = "a card: ./bench --card FILE SCRIPT runs a script on it"
# how files begin that are not scripts
OTHER_FILES = {
    b"\x7fELF": "a program",
    b"PK\x03\x04": "a ZIP archive",
    b"\x1f\x8b": "compressed (gzip)",
    b"%PDF": "a PDF document",
    b"\x89PNG": "a picture",
    b"{\\rtf": "a document of a word processor",
    b"<?xml": "XML",
    b"<!DOCTYPE": "a web page",
    b"<html": "a web page",
    b"TAP version": "a report of ./bench --test --tap",
    b"diff ": "a list of changes",
    b"TSC1": IMAGE,
    b"TSC2": IMAGE,
}


def shown(line: bytes) -> str:
    """The line as printable text; of a long one its two ends."""
    named = {9: "\\t", 13: "\\r", 92: "\\\\"}
    text = "".join(named.get(byte) or (chr(byte) if 32 <= byte < 127 else f"\\x{byte:02X}") for byte in line)
    return text if len(text) <= 110 else f"{text[:70]} .. {text[-30:]}"


def of_spaces(text: str) -> str | None:
    """What is wrong with the spaces, if anything."""
    if text.lstrip(" ").startswith("#"):
        return "a space stands before the #: a comment begins with it"
    if not text.strip(" "):
        return "it has spaces alone: an empty line has none"
    if text.startswith(" "):
        return "a space stands before the first word"
    if text.endswith(" "):
        return "a space stands at its end"
    if "  " in text:
        return "two spaces stand together: words are parted by one"
    return None


def of_bytes(order: str, given: str) -> str | None:
    """What is wrong with the digits of an apdu or a block, if anything."""
    if not given:
        return f"no digits follow {order}"
    if re.match(r"0[xX]", given):
        return "digits are written without 0x before them"
    if WITH_STATUS.fullmatch(given):
        return f"a status is not part of the order; in a test it stands on the line below: = < *{given.split(' ')[1]}"
    if " " in given and DIGITS.fullmatch(given.replace(" ", "")):
        return "a space stands among the digits: they are one word"
    digits = DIGITS.match(given)
    rest = given[digits.end() :] if digits else given
    if rest.lstrip(" ").startswith(OTHER_COMMENTS):
        return BEHIND_A_COMMAND
    if rest.startswith(" "):
        return "a word follows the digits: a line has one order"
    if rest:
        return f"{rest[0]!r} is not a hexadecimal digit"
    if len(given) % 2:
        return f"{len(given)} digits are an odd number: a byte has two"
    if len(given) // 2 > MOST_BYTES[order]:
        return f"{len(given) // 2} bytes are too many: {order} takes 1 to {MOST_BYTES[order]}"
    return None


def of_number(word: str) -> str | None:
    """What is wrong with a count, if anything."""
    if re.match(r"[+-]", word):
        return "a number has no sign"
    if not re.fullmatch(r"[0-9]+", word):
        return f"{word!r} is not a decimal number"
    if len(word) > 6:
        return f"the number {word} is out of range: it has 1 to 6 digits"
    if not int(word):
        return f"the number {word} is out of range: it is at least 1"
    return None


def of_cut(words: list[str]) -> str | None:
    """What is wrong with the words of a cut, if anything."""
    if len(words) != 2:
        return "cut takes two words: a number, and a mask of 4 hexadecimal digits"
    if re.match(r"0[xX]", words[1]):
        return "a mask is written without 0x before it"
    if not re.fullmatch(r"[0-9A-Fa-f]{4}", words[1]):
        return f"the mask {words[1]} has not exactly 4 hexadecimal digits"
    return of_number(words[0])


@lru_cache
def other_words() -> dict[str, str]:
    """What the bench has in place of an order of another program."""
    lines = OTHER_WORDS.read_text(encoding="utf-8").splitlines()
    return dict(line.split("  ", 1) for line in lines if line and not line.startswith("#"))


def of_name(text: str) -> str | None:
    """What a name of the prompt stands for in a script, if the line begins with one."""
    # (a script without a bad line needs none of the names)
    from .prompting.names import Unclear, line_for

    name, _, words = text.partition(" ")
    try:
        line = line_for(f"{name.lower()} {words}")
    except Unclear as why:
        line = str(why)
    return f"{name} is a name at the prompt (./bench at a terminal); a script has its line: {line}" if line else None


def of_no_order(text: str, order: str) -> str:
    """What is meant by a line that begins with none of the orders, as far as it shows."""
    if ANSWER.match(text):
        return "it is an answer, not an order; in a test it stands behind '= ' below its order (./bench --test)"
    if order.lower() in ORDERS:
        return f"upper case: the order is {order.lower()}"
    if order.startswith("=") and order != "=":
        return (
            "a space is missing behind the =: '= TEXT' says what the order above prints, in a test (./bench --test)"
        )
    if order in ("=", "expect", "assert"):
        return "'= TEXT' below an order says what it prints, in a test; ./bench --test FILE runs tests"
    if order in (">", "$", "card>", "off>"):
        return f"{order!r} is the mark of a log or a prompt; the order stands behind it"
    if order.startswith(OTHER_COMMENTS):
        return "a comment begins with #"
    if re.match(r"([0-9A-Fa-f] ?){4}", text):
        return "no order stands before the digits: is apdu meant? (./bench --apdus FILE runs a file of such lines)"
    sign = SIGN.match(order.lower())
    if sign and sign[1] in ORDERS:
        return f"{sign[2]!r} stands behind the order {sign[1]}: a line has one order, and its words have no signs"
    if said := of_name(text):
        return said
    if said := other_words().get(order.lower()):
        return f"unknown order {order!r}: {said}"
    near = difflib.get_close_matches(order.lower(), ORDERS, 1, 0.75)
    return f"unknown order {order!r}" + (f"; is {near[0]} meant?" if near else "")


def of_words(text: str) -> str | None:
    """What is wrong with a line of printable text, if anything."""
    order, *words = text.split(" ")
    if order not in ORDERS or ANSWER.match(text):
        return of_no_order(text, order)
    if order in MOST_BYTES:
        return of_bytes(order, text[len(order) + 1 :])
    if OPERANDS[order] == "K M":
        return of_cut(words)
    if OPERANDS[order] == "N":
        return of_number(words[0]) if len(words) == 1 else f"{order} takes one number"
    return f"{order} takes no further words" if words else None


def of_byte(line: bytes) -> str | None:
    """What is wrong with the first byte that isn't printable, if there is one."""
    at = next((at for at, byte in enumerate(line) if not 32 <= byte < 127), None)
    if at is None:
        return None
    try:
        sign = line[at:].decode("utf-8")[0]
        return f"it has the character U+{ord(sign):04X} ({unicodedata.name(sign).lower()}), which no order has"
    except ValueError:
        return f"it has a byte {line[at]:02X}, which no order has"


def of_the_file(line: bytes, number: int) -> str | None:
    """What is wrong with how the file is saved, if its first line shows it."""
    if number == 1 and line.startswith(b"\xef\xbb\xbf"):
        return "the file begins with a byte order mark (bytes EF BB BF): save it as UTF-8 without one"
    if number == 1 and line.startswith((b"\xff\xfe", b"\xfe\xff")):
        return "the file is UTF-16: save it as plain text, ASCII or UTF-8"
    if number == 1:
        what = next((what for begin, what in OTHER_FILES.items() if line.startswith(begin)), None)
        return what and f"the file is {what}" + ", not a script" * (what is not IMAGE)
    return None


def fault(line: bytes, number: int, has_line_feed: bool) -> str | None:
    """Why the line, without its line feed, is none of the language; None where it is one. Of a line of more than
    MOST_KEPT bytes the first ones are enough."""
    if not has_line_feed and line.endswith(b"\r") and len(line) <= LONGEST_LINE + 1:
        if not line.startswith(b"#") or len(line) > LONGEST_LINE:
            return "it ends with a carriage return and no line feed: only before a line feed is it dropped"
    if said := of_the_file(line, number):
        return said
    line = line[:-1] if has_line_feed and line.endswith(b"\r") else line
    if len(line) > LONGEST_LINE:
        many = len(line) if len(line) < MOST_KEPT or has_line_feed else f"more than {LONGEST_LINE}"
        return f"it has {many} bytes: a line has at most {LONGEST_LINE}"
    if not line or line.startswith(b"#"):
        return None
    if b"\t" in line:
        return "it has a tab: words are parted by one space"
    if b"\r" in line:
        return "it has a carriage return within: one alone, right before the line feed, is dropped"
    text = line.decode("latin-1")
    if "#" in text.lstrip(" ")[1:]:
        return BEHIND_A_COMMAND
    return of_byte(line) or of_spaces(text) or of_words(text)


def lines_of(stream: BinaryIO) -> Iterator[tuple[int, bytes, bool]]:
    """The lines of a script as they come: their number, at most MOST_KEPT of their bytes, and whether a line feed
    ended them. A longer line is given at once, and the rest of it is passed over."""
    number = 0
    while line := stream.readline(MOST_KEPT):
        number += 1
        has_line_feed = line.endswith(b"\n")
        yield number, line[:-1] if has_line_feed else line, has_line_feed
        while len(line) == MOST_KEPT and not line.endswith(b"\n"):
            line = stream.readline(MOST_KEPT)


def tell(line: bytes, number: int, why: str | None, stream: TextIO) -> None:
    """Shows a bad line, and the likely reason."""
    print(f'bench: line {number} is: "{shown(line)}"', file=stream)
    if why:
        print(f"bench: likely reason: {why}", file=stream, flush=True)
