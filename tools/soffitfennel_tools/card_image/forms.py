"""The forms of well-known files' contents, in words. A content that hasn't the form raises a ValueError."""

from __future__ import annotations

from collections.abc import Iterator

# 3GPP TS 23.038, 6.2.1: the default alphabet, without its extension
DEFAULT_ALPHABET = (
    "@£$¥èéùìòÇ\nØø\rÅåΔ_ΦΓΛΩΠΨΣΘΞ\x1bÆæßÉ !\"#¤%&'()*+,-./0123456789:;<=>?"
    "¡ABCDEFGHIJKLMNOPQRSTUVWXYZÄÖÑÜ§¿abcdefghijklmnopqrstuvwxyzäöñüà"
)
UPDATED = {0: "updated", 1: "not updated", 2: "network not allowed", 3: "area not allowed"}
OPERATION = {
    0x00: "normal",
    0x01: "normal, with specific facilities",
    0x02: "maintenance",
    0x04: "cell test",
    0x80: "type approval",
    0x81: "type approval, with specific facilities",
}
TECHNOLOGIES = {0x8000: "UTRAN", 0x4000: "E-UTRAN", 0x0800: "NG-RAN", 0x0080: "GSM", 0x0040: "GSM COMPACT"}
# of a number in a phone book: its length, kind, digits, and two references
NUMBER_BYTES = 14
INTERNATIONAL = 0x90
# ITU-T X.520, and RFC 2985 for the address of mail
ATTRIBUTES = {
    "550403": "CN",
    "550404": "SN",
    "550405": "serialNumber",
    "550406": "C",
    "550407": "L",
    "550408": "ST",
    "55040A": "O",
    "55040B": "OU",
    "55042A": "GN",
    "2A864886F70D010901": "emailAddress",
}


class Strange(ValueError):
    """Why a content hasn't its form."""


def part(content: bytes, start: int, size: int) -> bytes:
    """So many bytes, all of which are there."""
    found = content[start : start + size]
    if len(found) != size:
        raise Strange("it is too short")
    return found


def is_blank(content: bytes) -> bool:
    """Whether nothing was ever written."""
    return not content.strip(b"\xff")


def swapped(content: bytes) -> str:
    """The digits of bytes, the low half of each first."""
    return "".join(f"{it & 15:X}{it >> 4:X}" for it in content)


def number_of(digits: str) -> str:
    """Digits up to the first F, all of which are decimal."""
    found = digits.partition("F")[0]
    if not found.isdecimal():
        raise Strange("it has digits that are not decimal")
    return found


def letters(content: bytes) -> str:
    """Text in the default alphabet, or in UCS2 behind 80 (ETSI TS 102 221, annex A)."""
    if content[:1] == b"\x80":
        text = content[1:]
        while text[-2:] == b"\xff\xff" or len(text) % 2:
            text = text[:-1]
        return text.decode("utf-16-be")
    text = content.rstrip(b"\xff")
    if any(it > 127 for it in text):
        raise Strange("its text is in an alphabet that is not known here")
    return "".join(DEFAULT_ALPHABET[it] for it in text)


def network(content: bytes) -> str:
    """The code of a network: its country and itself."""
    digits = swapped(part(content, 0, 3))
    country, own = digits[:3], digits[4:] + digits[3].replace("F", "")
    if not (country + own).isdecimal():
        raise Strange("it has no network's code")
    return f"{country} {own}"


def digits(content: bytes) -> Iterator[str]:
    """A number in decimal digits."""
    yield number_of(swapped(content))


def imsi(content: bytes) -> Iterator[str]:
    """A subscriber's number: its length, and a half that says what it is."""
    yield number_of(swapped(part(content, 1, content[0]))[1:])


def languages(content: bytes) -> Iterator[str]:
    """Languages by ISO 639, the preferred one first."""
    codes = [content[at : at + 2] for at in range(0, len(content) - 1, 2)]
    found = [it.decode("ascii") for it in codes if it != b"\xff\xff"]
    yield ", ".join(found) or "none"


def name(content: bytes) -> Iterator[str]:
    """The name of a provider, behind when it is shown."""
    yield letters(content[1:])


def classes(content: bytes) -> Iterator[str]:
    """Access classes."""
    bits = int.from_bytes(part(content, 0, 2), "big")
    yield "classes " + (", ".join(str(it) for it in range(16) if bits >> it & 1) or "none")


def networks(content: bytes) -> Iterator[str]:
    """Codes of networks."""
    codes = [content[at : at + 3] for at in range(0, len(content) - 2, 3)]
    yield ", ".join(network(it) for it in codes if not is_blank(it)) or "none"


def technologies(content: bytes) -> Iterator[str]:
    """Codes of networks, each with its technologies."""
    entries = [content[at : at + 5] for at in range(0, len(content) - 4, 5)]
    for it in entries:
        if not is_blank(it[:3]):
            bits = int.from_bytes(it[3:], "big")
            yield f"{network(it)}: " + (", ".join(word for bit, word in TECHNOLOGIES.items() if bits & bit) or "none")


def location(content: bytes) -> Iterator[str]:
    """Where a phone was: its temporary number, the area, and whether that is known to the network."""
    area, status = part(content, 4, 5), part(content, 10, 1)[0] & 7
    yield f"TMSI {content[:4].hex().upper()}, network {network(area)}, area {area[3:].hex().upper()}, " + UPDATED.get(
        status, f"status {status}"
    )


def routing(content: bytes) -> Iterator[str]:
    """The same for packets."""
    area, status = part(content, 7, 6), part(content, 13, 1)[0] & 7
    where = f"network {network(area)}, area {area[3:5].hex().upper()}, routing area {area[5:].hex().upper()}"
    yield f"P-TMSI {content[:4].hex().upper()}, {where}, {UPDATED.get(status, f'status {status}')}"


def operation(content: bytes) -> Iterator[str]:
    """How a phone works with the card, and how many digits a network's own code has."""
    part(content, 0, 3)
    words = OPERATION.get(content[0], f"mode {content[0]:02X}")
    yield words + (f", a network's own code has {content[3] & 15} digits" if len(content) > 3 else "")


def dialling(content: bytes) -> Iterator[str]:
    """A name and a number of a phone book."""
    at = len(content) - NUMBER_BYTES
    if at < 0:
        raise Strange("it is too short")
    size, kind = content[at], content[at + 1]
    if not 1 <= size <= 11:
        raise Strange("it has no number")
    given = swapped(content[at + 2 : at + 1 + size]).rstrip("F")
    plain = given.translate(str.maketrans("ABCDE", "*#p?e"))
    yield f"{letters(content[:at])}: {'+' if kind & 0x70 == INTERNATIONAL & 0x70 else ''}{plain}"


def objects(content: bytes) -> Iterator[tuple[int, bytes, bytes]]:
    """The BER-TLV objects of one level: tag, value, and the whole object; up to a byte FF or 00 of no object."""
    at = 0
    while at < len(content) and content[at] not in (0x00, 0xFF):
        start, tag = at, content[at]
        at += 1
        if tag & 0x1F == 0x1F:
            tag = tag << 8 | part(content, at, 1)[0]
            at += 1
        size = part(content, at, 1)[0]
        at += 1
        if size >= 0x80:
            count = size & 0x7F
            if not 1 <= count <= 3:
                raise Strange("the length of an object is in no known form")
            size = int.from_bytes(part(content, at, count), "big")
            at += count
        yield tag, part(content, at, size), content[start : at + size]
        at += size


def first(content: bytes, wanted: int) -> bytes:
    """The value of the first object of a tag."""
    for tag, value, _ in objects(content):
        if tag == wanted:
            return value
    raise Strange(f"it has no object {wanted:02X}")


def directory(content: bytes) -> Iterator[str]:
    """Applications: name, label, path."""
    for tag, value, _ in objects(content):
        if tag == 0x61:
            inner = {inner_tag: inner_value for inner_tag, inner_value, _ in objects(value)}
            parts = [inner.get(0x4F, b"").hex().upper() or "no name"]
            parts += [repr(inner[0x50].decode("utf-8"))] if 0x50 in inner else []
            parts += [f"path {inner[0x51].hex().upper()}"] if 0x51 in inner else []
            yield ", ".join(parts)


def information(content: bytes) -> Iterator[str]:
    """Who made the card, and its label."""
    found = {tag: value for tag, value, _ in objects(first(content, 0x30))}
    for tag, what in ((0x04, "serial number"), (0x0C, "made by"), (0x80, "label")):
        if tag in found:
            yield f"{what} " + (found[tag].hex().upper() if tag == 0x04 else found[tag].decode("utf-8"))


def certificate(content: bytes) -> Iterator[str]:
    """The subject of a certificate."""
    body = first(first(content, 0x30), 0x30)
    members = [(tag, value) for tag, value, _ in objects(body)]
    # (version, if there; serial number, algorithm, issuer, validity, subject)
    at = 5 if members and members[0][0] == 0xA0 else 4
    if len(members) <= at or members[at][0] != 0x30:
        raise Strange("it has no subject")
    yield "subject " + ", ".join(attribute(group) for _, group, _ in objects(members[at][1]))


def attribute(group: bytes) -> str:
    """The attributes of one part of a name, as RFC 4514 writes them."""
    found = []
    for _, pair, _ in objects(group):
        (_, kind, _), (tag, value, _) = list(objects(pair))[:2]
        text = value.decode("utf-16-be" if tag == 0x1E else "utf-8")
        escaped = "".join(f"\\{it}" if it in ',+"\\<>;' else it for it in text)
        found.append(f"{ATTRIBUTES.get(kind.hex().upper(), f'OID {kind.hex().upper()}')}={escaped}")
    return "+".join(found)
