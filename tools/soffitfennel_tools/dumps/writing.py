"""Writes a card in the form of a dump."""
from __future__ import annotations

from collections.abc import Iterator

from ..card_image import layout
from ..card_image.tree import Card, File

from .rules import expanded

ARR, RULES = "2F06", "2F06"
DESCRIPTORS = {layout.DIRECTORY: 0x78, layout.TRANSPARENT: 0x41, layout.LINEAR: 0x42, layout.CYCLIC: 0x46}
CODING = 0x21
BOX = "#" * 80


def tlv(tag: int, value: bytes) -> bytes:
    """An object."""
    return bytes([tag, len(value)]) + value


class Writing:
    """A card on its way to a dump: the rules of its files become records of an EF.ARR that the dump adds."""

    def __init__(self, card: Card, table: dict[int, int]):
        self.card, self.table = card, table
        self.rules = list(dict.fromkeys(expanded(it.entry.rule, table) for it in card.files))

    def reference(self, file: File) -> bytes:
        """The object that names a file's rule."""
        return tlv(0x8B, bytes.fromhex(ARR) + bytes([1 + self.rules.index(expanded(file.entry.rule, self.table))]))

    def template(self, file: File) -> bytes:
        """A file's template, as a UICC has it."""
        descriptor = bytes([DESCRIPTORS[file.entry.kind], CODING])
        if file.has_records:
            descriptor += file.record_length.to_bytes(2, "big") + bytes([len(file.records)])
        parts = tlv(0x82, descriptor) + tlv(0x83, bytes.fromhex(file.identifier))
        parts += tlv(0x84, file.entry.name) if file.entry.name_length else b""
        parts += tlv(0x8A, bytes([file.entry.life_cycle])) + self.reference(file)
        if not file.is_directory:
            short = file.entry.short_identifier
            parts += tlv(0x80, file.size.to_bytes(2, "big")) + tlv(0x88, bytes([short << 3]) if short else b"")
        return tlv(0x62, parts)

    def lines(self) -> Iterator[str]:
        """The dump; the MF's own template is its first."""
        yield from self.file_lines(self.card.files[0])
        if not any(it.path == f"3F00/{ARR}" for it in self.card.files):
            yield from self.rule_lines()
        for file in self.card.files[1:]:
            yield from self.file_lines(file)

    def rule_lines(self) -> Iterator[str]:
        """EF.ARR."""
        size = max(len(it) for it in self.rules)
        descriptor = bytes([DESCRIPTORS[layout.LINEAR], CODING]) + size.to_bytes(2, "big") + bytes([len(self.rules)])
        everybody_reads = tlv(0x8C, b"\x01\x00")
        parts = tlv(0x82, descriptor) + tlv(0x83, bytes.fromhex(ARR)) + tlv(0x8A, b"\5") + everybody_reads
        parts += tlv(0x80, (size * len(self.rules)).to_bytes(2, "big")) + tlv(0x88, b"")
        yield from head("3F00", "EF.ARR", ARR, tlv(0x62, parts))
        for number, rule in enumerate(self.rules, 1):
            yield f"update_record {number} {rule.ljust(size, bytes([0xFF])).hex()}"

    def file_lines(self, file: File) -> Iterator[str]:
        """A file."""
        above = file.path.rpartition("/")[0] or "3F00"
        name = "MF" if file.path == "3F00" else f"{'DF' if file.is_directory else 'EF'}.{file.identifier}"
        yield from head(above, name, file.identifier, self.template(file))
        if file.has_records:
            yield from (f"update_record {number} {it.hex()}" for number, it in enumerate(file.records, 1))
        elif not file.is_directory:
            yield f"update_binary {file.body.hex()}"


def head(above: str, name: str, identifier: str, template: bytes) -> Iterator[str]:
    """The first lines of a file."""
    yield from (BOX, f"# {name}", f"# directory: {above} ({above.lower()})", f"# file: {name} ({identifier.lower()})")
    yield from (f"# RAW FCP Template: {template.hex()}", f"select {name}")
