"""Reads a dump, and describes its card."""
from __future__ import annotations

import re
from dataclasses import dataclass, field

from ..card_image import layout
from ..card_image.rule_words import is_rule
from ..issuing.draft import MF, STATES, Draft, FileDraft, PinDraft, Wrong

from .rules import compact, objects

HEX = re.compile(r"(?:[0-9a-fA-F]{2})+")
DIRECTORY = re.compile(r"# directory: .*\(((?:[0-9a-fA-F]{4}/?)+)\)\s*$")
FILE = re.compile(r"# file: (.+) \(([0-9a-fA-F]{4})\)\s*$")
TEMPLATE = re.compile(r"# RAW FCP Template: (\S+)\s*$")
BINARY = re.compile(r"update_binary (\S+)\s*$")
RECORD = re.compile(r"update_record (\d{1,3}) (\S+)\s*$")
ADMINISTRATOR = 8
# rules of what a dump doesn't say: the administrator alone
OF_DF, OF_EF = bytes([0x47] + [0x10 | ADMINISTRATOR] * 4), bytes([0x42, 0x10 | ADMINISTRATOR, 0x10 | ADMINISTRATOR])
LIFE = {1: 1, 3: 3, 4: 4, 5: 5, 6: 4, 7: 5}


@dataclass
class Dumped:
    """A file as a dump has it."""

    line: int
    name: str
    path: str
    template: dict[int, bytes] = field(default_factory=dict)
    body: bytes = b""
    records: dict[int, bytes] = field(default_factory=dict)

    @property
    def descriptor(self) -> int:
        return (self.template.get(0x82) or b"\0")[0]

    @property
    def is_directory(self) -> bool:
        return self.descriptor & 0x3F == 0x38

    @property
    def kind(self) -> int | None:
        """The card's kind of file; None where it has none, as of BER-TLV files (39)."""
        if self.is_directory:
            return layout.DIRECTORY
        kinds = {1: layout.TRANSPARENT, 2: layout.LINEAR, 6: layout.CYCLIC}
        return kinds.get(self.descriptor & 0x3F)


def octets(line: int, text: str) -> bytes:
    """Bytes of hexadecimal digits."""
    if not HEX.fullmatch(text):
        raise Wrong(f"'{text[:20]}' is no bytes in hexadecimal digits", line)
    return bytes.fromhex(text)


def read_dump(text: str) -> list[Dumped]:
    """The files of a dump."""
    found: list[Dumped] = []
    above, current = MF, None
    for line, words in enumerate(text.split("\n"), 1):
        if at := DIRECTORY.match(words):
            above = at[1].upper().strip("/")
            above = above if above.startswith(MF) else f"{MF}/{above}"
        elif at := FILE.match(words):
            path = MF if at[2].upper() == MF else f"{above}/{at[2].upper()}"
            current = Dumped(line, at[1], path)
            found.append(current)
        elif current and (at := TEMPLATE.match(words)):
            outer = dict(objects(octets(line, at[1])))
            current.template = dict(objects(outer.get(0x62, b"")))
        elif current and (at := BINARY.match(words)):
            current.body = octets(line, at[1])
        elif current and (at := RECORD.match(words)):
            current.records[int(at[1])] = octets(line, at[2])
    if not any(it.template for it in found):
        raise Wrong(
            "no file with a template is found: lines '# file: NAME (FID)' and '# RAW FCP Template: 62..' begin one"
        )
    return found


class Loading:
    """A dump on its way to a description: what is told of its files, and which have no place."""

    def __init__(self, files: list[Dumped], table: dict[int, int]):
        self.files, self.table = files, table
        self.told: list[str] = []
        self.left_out: list[str] = []
        self.draft = Draft()
        self.arr = {it.path: it.records for it in files if it.path[-4:] in ("2F06", "6F06")}

    def tell(self, it: Dumped, why: str) -> None:
        self.told.append(f"{it.path} ({it.name}): {why}")

    def leave_out(self, it: Dumped, why: str) -> None:
        self.left_out.append(f"{it.path} ({it.name}): {why}")

    def rule(self, it: Dumped) -> bytes:
        """The compact rule of a file."""
        own, reference = it.template.get(0x8C, b""), it.template.get(0x8B, b"")
        if is_rule(own):
            return own
        if len(reference) >= 3:
            name, number = reference[:2].hex().upper(), reference[-1]
            parents = [it.path.rpartition("/")[0], it.path, MF]
            record = next((self.arr[f"{at}/{name}"].get(number) for at in parents if f"{at}/{name}" in self.arr), None)
            if record:
                rule, lost = compact(record, self.table)
                for why in dict.fromkeys(lost):
                    self.tell(it, why)
                return rule
            self.tell(it, f"record {number} of EF.ARR {name} isn't in the dump: the administrator alone")
        else:
            self.tell(it, "no rule is in the dump: the administrator alone")
        return OF_DF if it.is_directory else OF_EF

    def draft_of(self, it: Dumped, kind: int) -> FileDraft:
        """The description of a file."""
        made = FileDraft(it.line, it.path, kind, rule=self.rule(it))
        made.state = LIFE.get(int.from_bytes(it.template.get(0x8A, b"\5"), "big"), STATES["activated"])
        if made.is_directory:
            made.name = it.template.get(0x84, b"")
            return made
        made.size = int.from_bytes(it.template.get(0x80, b""), "big") or len(it.body)
        made.short = self.short(it)
        if not made.has_records:
            made.body = it.body
            return made
        made.record_length = int.from_bytes(it.template[0x82][2:4], "big")
        last = max(it.records, default=0)
        made.records = [it.records.get(number, b"\xff") for number in range(1, last + 1)]
        made.number = made.capacity if made.record_length else 0
        return made

    def short(self, it: Dumped) -> int:
        """The short identifier: of object 88, or the identifier's last five bits where there is none."""
        value = it.template.get(0x88)
        if value is None:
            return int(it.path[-4:], 16) & 0x1F if int(it.path[-4:], 16) & 0x1F <= 30 else 0
        return value[0] >> 3 if value and value[0] >> 3 <= 30 else 0

    def take(self, it: Dumped) -> None:
        """Takes a file into the description, or says why it has no place."""
        if it.kind is None:
            self.leave_out(
                it, f"a file of descriptor {it.descriptor:02X}: transparent, linear and cyclic EFs are there"
            )
            return
        try:
            made = self.draft_of(it, it.kind)
            if not made.is_directory and not 1 <= made.size <= 32767:
                raise Wrong(f"{made.size:,} bytes: an EF has 1 to 32,767")
            if made.has_records and not (
                made.record_length and made.size % made.record_length == 0 and made.capacity <= 254
            ):
                raise Wrong(f"{made.size:,} bytes in records of {made.record_length}: an EF has at most 254 records")
            made.check()
            self.draft.add_file(made)
        except Wrong as why:
            self.leave_out(it, str(why))

    def parents(self) -> None:
        """Adds the DFs that a dump only names in paths."""
        paths = {it.path for it in self.files}
        wanted = {it.path.rpartition("/")[0] for it in self.files if it.path != MF}
        for path in sorted({"/".join(it.split("/")[:at]) for it in wanted for at in range(1, it.count("/") + 2)}):
            if path not in paths:
                made = Dumped(0, "not in the dump", path, {0x82: b"\x78\x21", 0x8C: OF_DF})
                self.files.append(made)
                if path != MF:
                    self.tell(made, "a DF without a template: the administrator alone")

    def load(self) -> Draft:
        """The description: the MF first, each DF before its files."""
        self.parents()
        for it in sorted(self.files, key=lambda it: it.path.split("/")):
            if it.template:
                self.take(it)
            else:
                self.leave_out(it, "the dump has no template of it")
        used = {byte & 0x0F for it in self.draft.files for byte in it.rule[1:] if byte not in (0x00, 0xFF)}
        for number in range(1, layout.PINS + 1):
            pin = self.draft.add_pin(PinDraft(0, number))
            pin.block()
            if number in used:
                pin.put("tries", "3")
                pin.put("puk-tries", "10")
        self.room()
        return self.draft

    def room(self) -> None:
        """Gives the card pages, or says what has no room."""
        need = sum(layout.blocks_of(it.size) for it in self.draft.files) + layout.BLOCK_PAGE
        self.draft.pages = max(layout.LEAST_PAGES, min(layout.MOST_PAGES, need))
        while need > layout.MOST_PAGES:
            last = self.draft.files.pop()
            need -= layout.blocks_of(last.size)
            self.left_out.append(f"{last.path}: no block is left for it")
