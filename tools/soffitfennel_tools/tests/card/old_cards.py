"""Memories worked out word by word: the factory's in both formats, and one of 57 files with interleaved chains."""
import random
from dataclasses import dataclass, field
from typing import Any

from ...card_image.layout import blocks_of

from .images import BLOCKS, ENTRIES, GATE, PAIRS, PINS, factory

OLD_MARK, NEW_MARK, OLD_PAGES = 0x54534331, 0x54534332, 1024
UNUSED = 0xFFFFFFFF
KINDS = {"DF": 1, "transparent": 2, "linear": 3, "cyclic": 4}
RULES = {0: "2718000000", 1: "07000000", 2: "030000"}


def on_pages(words: list[int], pages: int) -> list[int]:
    """A memory on a larger board, whose further words are unused."""
    return words + [UNUSED] * (16 * pages - len(words))


def old_factory(pages: int) -> list[int]:
    """The factory's memory in format 1."""
    words = factory()
    words[0], words[3] = OLD_MARK, 0
    for page in range(PINS, PINS + 8):
        words[16 * page + 6] = 0
    return on_pages(words, pages)


def new_factory(pages: int) -> list[int]:
    """The factory's memory in format 2, with this many pages."""
    words = factory() + [0] * 16 * (pages - OLD_PAGES)
    words[3] = pages
    link(words, list(range(BLOCKS + 1, pages)))
    return words


def renamed(words: list[int]) -> list[int]:
    """The words of format 2: links of the new blocks, their head, the page where the blocks end, and the marks."""
    new, pages = list(words), len(words) // 16
    for page in range(OLD_PAGES, pages):
        new[16 * page] = words[1] if page + 1 == pages else page + 1
    if pages > OLD_PAGES:
        new[1] = OLD_PAGES
    new[0], new[3] = NEW_MARK, pages
    for page in range(PINS, PINS + 8):
        new[16 * page + 6] = 1
    return new


def put(words: list[int], at: int, run: list[int]) -> None:
    """Writes consecutive words."""
    words[at:at + len(run)] = run


def link(words: list[int], blocks: list[int]) -> None:
    """Links blocks into a chain."""
    for block, following in zip(blocks, [*blocks[1:], 0]):
        words[16 * block] = following


def path_of(entry: int) -> str:
    """Entries 1 to 3 are directories, each in the one before; the others are spread over these and the master file."""
    parents = "".join(f"/7F{it:02X}" for it in range(1, entry if entry < 4 else entry % 4 + 1))
    return f"3F00{parents}" + ("" if entry == 0 else f"/{'7F' if entry < 4 else '6F'}{entry:02X}")


def file_of(entry: int, chance: random.Random) -> dict[str, Any] | None:
    """The file of an entry, in the terms of tools/card, with pseudorandom sizes; seven entries have none."""
    kind = "DF" if entry < 4 else ("transparent", "linear", "cyclic")[entry % 3]
    if entry % 9 == 8:
        return None
    rule = {"bytes": RULES[0 if entry == 0 else 1 if kind == "DF" else 2], "allows": {"read": "always"}}
    file: dict[str, Any] = {"path": path_of(entry), "kind": kind, "life_cycle": "activated", "rule": rule}
    if kind == "DF":
        return {**file, "name": f"A00000{entry:02X}" if entry else None}
    length, capacity = chance.randint(1, 60), chance.randint(1, 15)
    number, start = chance.randint(0, capacity), chance.randrange(capacity) if kind == "cyclic" else 0
    size = chance.randint(1, 1500) if kind == "transparent" else length * capacity
    body = bytes((37 * entry + 11 * at) % 251 for at in range(size))
    file |= {"short_identifier": entry // 4 if entry < 32 else 0, "size": size, "body": body}
    if kind == "transparent":
        return {**file, "content": body.hex().upper()}
    slots = [(start + it) % capacity * length for it in range(number)]
    records = [body[at:at + length].hex().upper() for at in slots]
    return {**file, "record_length": length, "start": start, "records": records}


def entry_words(entry: int, file: dict[str, Any], blocks: list[int]) -> list[int]:
    """The words of an entry, whose file has this chain."""
    rule, name = bytes.fromhex(file["rule"]["bytes"]), file.get("name")
    parent = entry % 4 if entry > 3 else max(entry - 1, 0)
    short, named = file.get("short_identifier", 0), 4 if name else 0
    return [
        KINDS[file["kind"]] << 24 | 5 << 16 | int(file["path"][-4:], 16),
        parent << 24 | short << 16 | named << 8 | len(rule),
        int.from_bytes(rule[:4].ljust(4, b"\0"), "big"),
        int.from_bytes(rule[4:].ljust(4, b"\0"), "big"),
        int(name or "0", 16),
        *[0] * 3,
        file.get("size", 0) << 16 | file.get("record_length", 0),
        blocks[0] << 16 | blocks[-1] if blocks else 0,
        len(file.get("records", [])) << 16 | file.get("start", 0),
    ]


@dataclass
class Busy:
    """A memory of format 1 and 1,030 pages, and what is in it. All unused words are all ones."""

    words: list[int] = field(default_factory=lambda: [UNUSED] * 16 * 1030)
    free: list[int] = field(default_factory=list)
    files: list[dict[str, Any]] = field(default_factory=list)

    def put_file(self, entry: int, file: dict[str, Any] | None) -> None:
        """Writes an entry, and its file's contents to free blocks."""
        at = 16 * (ENTRIES + entry)
        if file is None:
            self.words[at] = 0
            return
        body = file.pop("body", b"")
        blocks = [self.free.pop() for _ in range(blocks_of(len(body)))]
        link(self.words, blocks)
        for number, block in enumerate(blocks):
            part = body[60 * number:60 * (number + 1)].ljust(60, b"\xff")
            put(self.words, 16 * block + 1, [int.from_bytes(part[it:it + 4], "big") for it in range(0, 60, 4)])
        put(self.words, at, entry_words(entry, file, blocks))
        self.files.append(file)

    def begin(self) -> None:
        """Leaves a transaction open: head of the free chain, a free entry, the last free block, card state, tries."""
        last = 16 * self.free[-1]
        changes = (1, 0), (16 * 9, 0x02056F99), (last, 128), (last + 15, 7), (last, 129), (2, 1), (16 * PINS, 3)
        for number, (at, word) in enumerate(changes, 1):
            put(self.words, PAIRS + 2 * (number - 1), [at, self.words[at]])
            self.words[GATE], self.words[at] = number, word


def busy_card(state: int, chance: random.Random) -> Busy:
    """The memory with an empty journal, in this card state."""
    busy = Busy(free=chance.sample(range(BLOCKS, OLD_PAGES), OLD_PAGES - BLOCKS))
    for entry in range(64):
        busy.put_file(entry, file_of(entry, chance))
    for pin in range(8):
        secrets = [0x31323334, UNUSED, 0x31323334, 0x35363738]
        put(busy.words, 16 * (PINS + pin), [pin % 4, pin + 2, *secrets])
    link(busy.words, busy.free)
    put(busy.words, 0, [OLD_MARK, busy.free[0], state])
    busy.words[GATE] = 0
    return busy


def answers_of(busy: Busy, is_terminated: bool) -> dict[str, Any]:
    """What the migrated card answers, in the terms of tools/card: 6 blocks more are free."""
    pins = [{"number": it + 1, "is_enabled": True, "tries": it % 4, "unblocking_tries": it + 2} for it in range(8)]
    free = {"blocks": len(busy.free) + 6, "entries": 64 - len(busy.files)}
    return {"files": busy.files, "pins": pins, "free": free, "is_terminated": is_terminated}
