"""Commands and answers in traces: pcap with GSMTAP, pcscd's log, OpenSC's debug log, scriptor's output, plain lines."""
from __future__ import annotations

import re
import struct
from collections.abc import Iterator
from dataclasses import dataclass


class Wrong(Exception):
    """What is wrong in a trace, and where."""


@dataclass(frozen=True)
class Exchange:
    """A command and its answer; a reset has no command."""

    place: str
    sent: bytes | None
    got: bytes = b""


PCAPS = {b"\xd4\xc3\xb2\xa1": "<", b"\x4d\x3c\xb2\xa1": "<", b"\xa1\xb2\xc3\xd4": ">", b"\xa1\xb2\x3c\x4d": ">"}
PCAPNG = b"\x0a\x0d\x0d\x0a"
# bytes before IP, by link type: null, Ethernet, raw, Linux cooked, raw again, Linux cooked 2
SKIPPED = {0: 4, 1: 14, 101: 0, 113: 16, 228: 0, 276: 20}
PORT, UDP, SIM, APDU, ATR = 4729, 17, 4, 0, 1
# of T=0: instructions whose data the card sends, and those that send data and get data
FROM_CARD = {0xB0, 0xB2, 0xF2, 0xC0, 0xCA, 0x84, 0x12}
BOTH_WAYS = {0xA4, 0xA2, 0x32, 0x88, 0xCB}


def exchanges(raw: bytes) -> Iterator[Exchange]:
    """The commands of a trace, in its own form."""
    if raw[:4] == PCAPNG:
        raise Wrong("this is a pcapng file: editcap -F pcap IN OUT makes a pcap file of it")
    if raw[:4] in PCAPS:
        yield from of_pcap(raw, PCAPS[raw[:4]])
        return
    text = raw.decode("utf-8", "replace")
    yield from of_dumps(text) if "Outgoing APDU" in text else of_lines(text)


def of_pcap(raw: bytes, order: str) -> Iterator[Exchange]:
    """The GSMTAP packets of a pcap file. Other packets are none of ours."""
    if len(raw) < 24:
        raise Wrong("the file ends within its header")
    link, at, number = struct.unpack(order + "I", raw[20:24])[0] & 0xFFFF, 24, 0
    if link not in SKIPPED:
        raise Wrong(f"link type {link} isn't known: raw IP, Ethernet and Linux cooked are")
    while at < len(raw):
        number += 1
        size = struct.unpack(order + "I", raw[at + 8 : at + 12])[0] if at + 16 <= len(raw) else len(raw)
        frame = raw[at + 16 : at + 16 + size]
        if len(frame) < size:
            raise Wrong(f"packet {number} is cut short")
        at += 16 + size
        yield from of_packet(f"packet {number}", frame[SKIPPED[link] :])


def of_packet(place: str, ip: bytes) -> Iterator[Exchange]:
    """The command or the answer to reset in a packet, if it has one."""
    if len(ip) < 28 or ip[0] >> 4 != 4 or ip[9] != UDP:
        return
    udp = ip[(ip[0] & 15) * 4 :]
    tap = udp[8:]
    if udp[2:4] != PORT.to_bytes(2, "big") or len(tap) < 16 or tap[2] != SIM:
        return
    payload = tap[tap[1] * 4 :]
    if tap[12] == ATR:
        yield Exchange(place, None, payload)
    elif tap[12] == APDU and len(payload) < 3:
        raise Wrong(f"{place} has {len(payload)} bytes, too few for a command and its status")
    elif tap[12] == APDU:
        # (a command without its header is one that a card refuses)
        yield of_t0(place, payload) if len(payload) >= 7 else Exchange(place, payload[:-2], payload[-2:])


def of_t0(place: str, raw: bytes) -> Exchange:
    """An exchange of T=0 in one packet: a header of five bytes, data of one way or of both, a status."""
    instruction, size, rest = raw[1], raw[4], raw[5:]
    body, status = rest[:-2], rest[-2:]
    if instruction in FROM_CARD:
        return Exchange(place, raw[:5], rest)
    if not size:
        # (no data, or 256 bytes that are asked for)
        return Exchange(place, raw[:4] if not body else raw[:5], rest)
    if len(body) < size:
        return Exchange(place, raw[:5] + body, status)
    answer = body[size:]
    has_le = bool(answer) and instruction in BOTH_WAYS
    return Exchange(place, raw[: 5 + size] + b"\0" * has_le, answer + status)


DUMP = re.compile(r"(Outgoing|Incoming) APDU \((\d+) bytes\):")


def of_dumps(text: str) -> Iterator[Exchange]:
    """OpenSC's debug log: each command and answer as a dump of sixteen bytes a line."""
    lines, sent = text.split("\n"), b""
    for number, line in enumerate(lines, 1):
        found = DUMP.search(line)
        if not found:
            continue
        size, data, at = int(found[2]), b"", number
        while len(data) < size and at < len(lines):
            pairs = re.match(r"((?:[0-9A-Fa-f]{2} ){1,16})", lines[at] + " ")
            if not pairs:
                break
            data += bytes.fromhex(pairs[1])[: size - len(data)]
            at += 1
        if len(data) < size:
            raise Wrong(f"line {number}: {size} bytes are said to follow, and {len(data)} do")
        if found[1] == "Outgoing":
            sent = data
        elif sent:
            yield Exchange(f"line {number}", sent, data)
            sent = b""


HEXES = r"((?:[0-9A-Fa-f]{2}[ :]?)*[0-9A-Fa-f]?)"
COMMAND = re.compile(rf"(?:^\d+ APDU: |^APDU: |^> |^apdu ){HEXES}\s*$")
ANSWER = re.compile(rf"(?:^\d+ SW: |^SW: |^< |^= < ){HEXES}(?: ?: .*)?\s*$")
RESET = re.compile(r"^(?:> RESET|> reset|reset|on)\s*$|^< OK: 3[BF]|IFDHPowerICC|PowerICC\(\)")
BROKEN = re.compile(r"^(?:[0-9A-F]{2} )+(?:: .*)?$")


def of_lines(text: str) -> Iterator[Exchange]:
    """Lines of pcscd's log, scriptor's output, plain lists ("> H" and "< H"), or tests of ./bench --test."""
    sent: bytes | None = None
    for number, line in unbroken(text):
        place = f"line {number}"
        command, answer = COMMAND.match(line), ANSWER.match(line)
        if RESET.search(line):
            sent = None
            yield Exchange(place, None)
        elif command and command[1]:
            sent = octets(place, command[1])
        elif answer and answer[1] and sent is not None:
            yield Exchange(place, sent, octets(place, answer[1]))
            sent = None


def unbroken(text: str) -> Iterator[tuple[int, str]]:
    """The lines; those that scriptor breaks behind sixteen bytes are put together."""
    lines = text.splitlines()
    at = 0
    while at < len(lines):
        number, line = at + 1, lines[at]
        at += 1
        is_broken = line.startswith("< ")
        while is_broken and " : " not in line and at < len(lines) and BROKEN.match(lines[at].rstrip() + " "):
            line += lines[at]
            at += 1
        yield number, line


def octets(place: str, text: str) -> bytes:
    """Bytes of hexadecimal digits."""
    digits = re.sub(r"[ :]", "", text)
    if len(digits) % 2:
        raise Wrong(f"{place}: an odd number of hexadecimal digits")
    return bytes.fromhex(digits)
