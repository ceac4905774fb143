"""Access rules of a UICC, expanded in EF.ARR (ETSI TS 102 221; ISO/IEC 7816-4), and the card's compact ones."""
from __future__ import annotations

import re
from collections.abc import Iterator

COMMANDS, LAST_COMMANDS = 0x81, 0x8F
ACCESS_MODE, ALWAYS, NEVER, AUTHENTICATION, EITHER, ALL = 0x80, 0x90, 0x97, 0xA4, 0xA0, 0xAF
KEY_REFERENCE, USAGE = 0x83, 0x95
# 01 to 08 are PINs as they are
TABLE = {0x81: 2, 0x0A: 8}


class Unsaid(Exception):
    """What the card can't say, and what it says in its place."""


def table_of(text: str) -> dict[int, int]:
    """A table of references from "81=2,0A=8"."""
    if not re.fullmatch(r"[0-9A-Fa-f]{2}=[1-8](,[0-9A-Fa-f]{2}=[1-8])*", text):
        raise ValueError(f"{text}: such as 81=2,0A=8, a reference and one of the card's PINs 1 to 8")
    return {int(it[:2], 16): int(it[3]) for it in text.split(",")}


def objects(raw: bytes) -> Iterator[tuple[int, bytes]]:
    """The objects of a value; padding ends them."""
    at = 0
    while at + 2 <= len(raw) and raw[at] not in (0x00, 0xFF):
        tag, size, at = raw[at], raw[at + 1], at + 2
        if size == 0x81 and at < len(raw):
            size, at = raw[at], at + 1
        yield tag, raw[at : at + size]
        at += size


def condition(tag: int, value: bytes, table: dict[int, int]) -> tuple[int, str]:
    """The condition byte of an expanded one, and what is lost; of alternatives the first with a PIN: the card never
    allows more than the dump."""
    if tag in (ALWAYS, NEVER):
        return (0x00 if tag == ALWAYS else 0xFF), ""
    if tag == AUTHENTICATION:
        reference = next((it[0] for tag, it in objects(value) if tag == KEY_REFERENCE and it), 0)
        pin = reference if 1 <= reference <= 8 else table.get(reference)
        return (0x10 | pin, "") if pin else (0xFF, f"no PIN stands for reference {reference:02X}: never")
    if tag == EITHER:
        inner = [condition(*it, table) for it in objects(value)]
        usable = [byte for byte, _ in inner if byte != 0xFF]
        if len(set(usable)) == 1:
            return usable[0], ""
        return (usable[0], "one of several conditions: only the first is asked") if usable else (0xFF, "never")
    return 0xFF, f"condition {tag:02X} can't be said: never"


def compact(record: bytes, table: dict[int, int]) -> tuple[bytes, list[str]]:
    """The compact rule of a record of EF.ARR, and what is lost."""
    bits: dict[int, int] = {}
    lost = []
    mode: int | None = None
    for tag, value in objects(record):
        if tag == ACCESS_MODE and value:
            mode = value[0]
        elif COMMANDS <= tag <= LAST_COMMANDS:
            # (a rule of single commands: of INCREASE, 8401 32)
            lost.append(f"the rule of instruction {value[-1:].hex().upper()} can't be said: it is left out")
            mode = 0
        elif mode is None:
            lost.append(f"object {tag:02X} can't be said: it is left out")
        else:
            byte, why = condition(tag, value, table)
            lost += [why] * bool(why)
            bits.update({bit: byte for bit in range(7) if mode >> bit & 1})
            mode = None
    order = [bit for bit in range(6, -1, -1) if bit in bits]
    return bytes([sum(1 << bit for bit in order), *(bits[bit] for bit in order)]), lost


def expanded(rule: bytes, table: dict[int, int]) -> bytes:
    """The expanded form of a compact rule."""
    references = {pin: reference for reference, pin in table.items()}
    conditions, text = iter(rule[1:]), b""
    for bit in range(6, -1, -1):
        if rule[0] >> bit & 1:
            byte = next(conditions)
            pin = byte & 0x0F
            key = bytes([KEY_REFERENCE, 1, references.get(pin, pin), USAGE, 1, 0x08])
            known = {0x00: bytes([ALWAYS, 0]), 0xFF: bytes([NEVER, 0])}
            text += bytes([ACCESS_MODE, 1, 1 << bit]) + known.get(byte, bytes([AUTHENTICATION, len(key)]) + key)
    return text
