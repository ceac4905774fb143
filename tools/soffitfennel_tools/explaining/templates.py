"""Templates in words (docs/CARD.md, Templates and Access rules): what one says, and what CREATE FILE refuses."""
from __future__ import annotations

from collections.abc import Iterator

KINDS = {0x38: "DF", 0x78: "DF", 0x01: "transparent", 0x41: "transparent"}
KINDS.update({0x02: "linear", 0x42: "linear", 0x06: "cyclic", 0x46: "cyclic"})
STATES = {0x01: "creation", 0x03: "initialisation", 0x04: "deactivated", 0x05: "activated", 0x0C: "terminated"}
CREATED = {0x01: 0x01, 0x03: 0x03, 0x05: 0x05, 0x07: 0x05, 0x04: 0x04, 0x06: 0x04}
# what a bit of the access mode byte allows, from bit 7 down to bit 1
OF_DF = ("delete", "terminate", "activate", "deactivate", "create DF", "create EF", "delete child")
OF_EF = ("delete", "terminate", "activate", "deactivate", "append", "update", "read")
LENGTHS = {0x83: (2, 2), 0x84: (1, 16), 0x88: (0, 1), 0x80: (2, 4), 0x8A: (1, 1), 0x8C: (1, 8)}
WITHOUT_EFFECT = (0x81, 0xA5, 0xC6)
MOST_BYTES = 32_767


def count(number: int, what: str) -> str:
    """A number and what is counted."""
    return f"{number:,} {what}" if number == 1 else f"{number:,} {what}s"


def follow(number: int, what: str) -> str:
    """How many of a thing follow."""
    return f"{count(number, what)} follow{'s' * (number == 1)}"


def listed(names: list[str]) -> str:
    """Names as a sentence lists them."""
    return names[0] if len(names) == 1 else f"{', '.join(names[:-1])} and {names[-1]}"


def tagged(template: bytes) -> list[tuple[int, bytes]]:
    """The objects of a template, as far as they are whole."""
    found, rest = [], template[2:]
    while len(rest) >= 2 and len(rest) >= 2 + rest[1]:
        found.append((rest[0], rest[2 : 2 + rest[1]]))
        rest = rest[2 + rest[1] :]
    return found


def meaning(byte: int) -> str | None:
    """A condition byte of a rule: always, never, or the PIN that it asks for; None where it is not a condition."""
    if byte in (0x00, 0xFF):
        return "always" if byte == 0 else "never"
    is_known = byte >> 4 in (1, 9) and 1 <= byte & 0xF <= 8
    return f"PIN {byte & 0xF}" if is_known else None


def condition(byte: int) -> str:
    """A condition byte of a rule in words."""
    words = meaning(byte)
    if words is None:
        return f"{byte:02X}, which is not a condition"
    return f"asks for {words}" if words.startswith("PIN") else words


class Template:
    """A template's objects, the first one of each tag."""

    def __init__(self, text: bytes):
        self.text, self.all = text, tagged(text)
        self.objects: dict[int, bytes] = {}
        for tag, value in self.all:
            self.objects.setdefault(tag, value)

    def number(self, tag: int) -> int:
        """An object's value as a number, 0 where there is none."""
        return int.from_bytes(self.objects.get(tag, b""), "big")

    @property
    def kind(self) -> str:
        """DF, transparent, linear, cyclic; empty where object 82 doesn't say."""
        return KINDS.get((self.objects.get(0x82) or b"\0")[0], "")

    @property
    def identifier(self) -> str:
        """The identifier's digits."""
        return self.objects.get(0x83, b"").hex().upper()

    @property
    def short(self) -> int | None:
        """The short identifier: 0 for none, None where the template doesn't say."""
        value = self.objects.get(0x88)
        return None if value is None else int.from_bytes(value, "big") >> 3

    @property
    def size(self) -> int:
        """The bytes of an EF's body."""
        return self.number(0x80)

    @property
    def state(self) -> int:
        """The life cycle's byte."""
        return self.number(0x8A) if 0x8A in self.objects else 5

    @property
    def record_length(self) -> int:
        """The length of a record EF's records."""
        return int.from_bytes(self.objects.get(0x82, b"")[2:4], "big")

    @property
    def capacity(self) -> int:
        """How many records a record EF has room for."""
        return self.size // self.record_length if self.record_length else 0

    @property
    def records(self) -> int:
        """How many records exist."""
        value = self.objects.get(0x82, b"")
        return value[4] if len(value) == 5 else self.capacity

    def allows(self, bit: int) -> str:
        """The condition of a bit of the rule, 7 to 1, in words."""
        rule = self.objects.get(0x8C, b"\0")
        if not rule[0] >> (bit - 1) & 1:
            return "never"
        place = 1 + sum(rule[0] >> at & 1 for at in range(bit, 7))
        return condition(rule[place]) if place < len(rule) else ""

    def rule_in_words(self) -> str:
        """The rule: what is allowed always, and what asks for a PIN; what isn't named is never allowed."""
        names = OF_DF if self.kind == "DF" else OF_EF
        by_words: dict[str, list[str]] = {}
        for bit in range(1, 8):
            by_words.setdefault(self.allows(bit), []).append(names[7 - bit])
        allowed = {words: names for words, names in by_words.items() if words != "never"}
        if not allowed:
            return "nothing is ever allowed"
        return ", ".join(f"{listed(names)} {words}" for words, names in allowed.items())

    def in_words(self) -> str:
        """The whole template in words."""
        parts = ["DF" if self.kind == "DF" else f"{self.kind} EF", self.size_in_words()]
        if self.short is not None and self.kind != "DF":
            parts.append(f"short identifier {self.short}" if self.short else "no short identifier")
        if 0x84 in self.objects:
            parts.append(f"name {self.objects[0x84].hex().upper()}")
        parts.append(STATES.get(self.state, f"state {self.state:02X}"))
        return f"{', '.join(filter(None, parts))}; rule: {self.rule_in_words()}"

    def size_in_words(self) -> str:
        """Bytes or records; nothing of a DF."""
        if self.kind == "transparent":
            return count(self.size, "byte")
        if self.kind in ("linear", "cyclic"):
            return f"{self.records} of {self.capacity} records of {count(self.record_length, 'byte')}"
        return ""


def shape(text: bytes) -> str | None:
    """What is wrong with the outer form of a template, if anything."""
    if text[:1] != b"\x62":
        return f"a template begins with tag 62, and this one with {text[:1].hex().upper()}"
    if len(text) < 2 or text[1] > 0x7F:
        return "the length of tag 62 is a byte from 00 to 7F"
    if text[1] != len(text) - 2:
        return f"tag 62 has length {text[1]:02X}, and {follow(len(text) - 2, 'byte')}"
    rest = text[2:]
    while rest:
        if len(rest) < 2 or rest[1] > 0x7F or len(rest) < 2 + rest[1]:
            return f"tag {rest[0]:02X} is cut short: its value doesn't fit into tag 62"
        rest = rest[2 + rest[1] :]
    return None


def missing(template: Template) -> str | None:
    """A tag that has to be there and isn't."""
    begins = {value[:1] for tag, value in template.all if tag == 0x82}
    is_df = bool(begins & {b"\x38", b"\x78"})
    for tag, what in ((0x82, "kind of file"), (0x83, "identifier"), (0x8C, "rule"), (0x80, "size")):
        if tag not in template.objects and not (tag == 0x80 and is_df):
            return f"tag {tag:02X} is missing, the {what}"
    return None


def twice(template: Template) -> str | None:
    """A tag that comes twice."""
    known, seen = (0x82, *LENGTHS, *WITHOUT_EFFECT), set()
    for tag, _ in template.all:
        if tag in seen and tag in known:
            return f"tag {tag:02X} comes twice"
        seen.add(tag)
    return None


def descriptor(value: bytes) -> str | None:
    """What is wrong with object 82."""
    kind = KINDS.get((value or b"\0")[0])
    if not kind:
        came = value[:1].hex().upper() or "no byte"
        return f"tag 82: {came} is not a kind of file; 78 is a DF, 41 transparent, 42 linear, 46 cyclic"
    if kind in ("DF", "transparent"):
        return None if len(value) in (1, 2) else f"tag 82 has {count(len(value), 'byte')}: for this kind it has 1 or 2"
    if len(value) not in (4, 5):
        return f"tag 82 has {count(len(value), 'byte')}: of a record EF it has 4, or 5 with the number of records"
    length = int.from_bytes(value[2:4], "big")
    return None if 1 <= length <= 255 else f"tag 82: the record length {length} isn't 1 to 255"


def by_tag(template: Template, tag: int, value: bytes) -> str | None:
    """What is wrong with an object by its own tag and kind of file."""
    is_df, number = template.kind == "DF", int.from_bytes(value, "big")
    if tag == 0x83 and template.identifier in ("3F00", "3FFF", "FFFF"):
        return f"tag 83: no new file has identifier {template.identifier}"
    if tag == 0x84 and not is_df:
        return "tag 84: an EF has no name"
    if tag == 0x88 and is_df:
        return "tag 88: a DF has no short identifier"
    if tag == 0x88 and value and (number & 7 or not 1 <= number >> 3 <= 30):
        return f"tag 88: {number:02X} is not a short identifier 1 to 30 in bits 8 to 4 with bits 3 to 1 clear"
    if tag == 0x8A and number not in CREATED:
        return f"tag 8A: {number:02X} is not a state of a new file; 05 is activated"
    return size_fault(template, number) if tag == 0x80 and not is_df else rule_fault(value) if tag == 0x8C else None


def size_fault(template: Template, size: int) -> str | None:
    """What is wrong with object 80 of an EF."""
    if not 1 <= size <= MOST_BYTES:
        return f"tag 80: the size {size:,} isn't 1 to {MOST_BYTES:,}"
    length = template.record_length
    if template.kind == "transparent" or not length:
        return None
    if size % length:
        return f"tag 80: the size {size} is not a multiple of the record length {length}"
    if not 1 <= size // length <= 254:
        return f"tag 80: {size // length} records are more than 254"
    if template.records > template.capacity:
        return f"tag 82: {template.records} records don't fit: the size holds {template.capacity}"
    return None


def rule_fault(rule: bytes) -> str | None:
    """What is wrong with object 8C."""
    if rule[0] > 0x7F:
        return f"tag 8C: bit 8 of the access mode byte {rule[0]:02X} is set"
    wanted = rule[0].bit_count()
    if len(rule) - 1 != wanted:
        return f"tag 8C: {rule[0]:02X} has {count(wanted, 'bit')} set, and {follow(len(rule) - 1, 'condition')}"
    for byte in rule[1:]:
        if byte not in (0x00, 0xFF) and not condition(byte).startswith("asks"):
            return f"tag 8C: {byte:02X} is not a condition; 00 is always, FF never, 11 to 18 PIN 1 to 8"
    return None


def values(template: Template) -> Iterator[str | None]:
    """What is wrong with each object, in their order."""
    for tag, value in template.all:
        if tag == 0x82:
            yield descriptor(value)
        elif tag in LENGTHS:
            least, most = LENGTHS[tag]
            is_fit = least <= len(value) <= most
            wanted = f"{least}" if least == most else f"{least} to {most}"
            has = f"tag {tag:02X} has {count(len(value), 'byte')}"
            yield by_tag(template, tag, value) if is_fit else f"{has}: it has {wanted}"
        elif tag not in WITHOUT_EFFECT:
            yield f"tag {tag:02X} isn't known"


def fault(text: bytes) -> str | None:
    """The first fault of a template for CREATE FILE, in words; None where it has none."""
    if said := shape(text):
        return said
    template = Template(text)
    return missing(template) or twice(template) or next(filter(None, values(template)), None)
