"""What is different between two cards, in the card's terms."""
from collections.abc import Iterator

from ..explaining.templates import count as counted

from . import layout
from .telling import file_line, pin_line
from .tree import Card, File, Pin, Reading

Change = tuple[str, str]


def differences(old: Reading, new: Reading, has_secrets: bool) -> list[Change]:
    """What changed, each with its subject: the card, a file by its path, a PIN, the free space, the journal."""
    if old.card is None or new.card is None:
        raise ValueError("a memory that holds no card")
    changes = [*of_card(old.card, new.card), *of_files(old.card, new.card)]
    for one, other in zip(old.card.pins, new.card.pins):
        changes += of_pin(one, other, has_secrets)
    changes += of_space(old.card, new.card)
    if old.image.gate != new.image.gate:
        before, after = (counted(it.image.gate, "pair") for it in (old, new))
        changes.append(("journal", f"{before} to roll back, now {after}"))
    return changes


def of_card(old: Card, new: Card) -> Iterator[Change]:
    """What changed of the memory and of the card's state."""
    if old.pages != new.pages:
        yield "memory", f"{counted(old.pages, 'page')}, now {counted(new.pages, 'page')}"
    if old.format != new.format:
        yield "memory", f"format {old.format}, now format {new.format}"
    if old.is_terminated != new.is_terminated:
        yield "card", "terminated" if new.is_terminated else "in use again"


def of_files(old: Card, new: Card) -> Iterator[Change]:
    """Files that are gone, new or changed."""
    for file in old.files:
        if file.path not in new.by_path:
            yield file.path, "deleted"
    for file in new.files:
        earlier = old.by_path.get(file.path)
        if earlier is None:
            yield file.path, f"created: {file_line(file)}"
        elif shape(earlier) != shape(file):
            yield file.path, f"replaced: {file_line(earlier)}; now {file_line(file)}"
        else:
            yield from ((file.path, it) for it in of_file(earlier, file))


def shape(file: File) -> tuple[object, ...]:
    """What no command changes of a file."""
    entry = file.entry
    return entry.kind, entry.short_identifier, entry.name, entry.rule, file.size, file.is_directory or entry.words[8]


def of_file(old: File, new: File) -> Iterator[str]:
    """What changed of a file that is the same one."""
    if old.life_cycle != new.life_cycle:
        yield f"{old.life_cycle}, now {new.life_cycle}"
    if new.has_records:
        yield from of_records(old, new)
    else:
        yield from of_body(old.body, new.body)


def of_body(old: bytes, new: bytes) -> Iterator[str]:
    """Each run of bytes that changed."""
    at = 0
    while at < len(new):
        end = at
        while end < len(new) and old[end] != new[end]:
            end += 1
        if end > at:
            where = f"byte {at}" if end == at + 1 else f"bytes {at} to {end - 1}"
            yield f"{where}: {old[at:end].hex().upper()}, now {new[at:end].hex().upper()}"
        at = end + 1


def of_records(old: File, new: File) -> Iterator[str]:
    """Records that changed; of a cyclic EF a new one in front isn't a change of all others."""
    before, after = old.records, new.records
    is_cyclic = new.entry.kind == layout.CYCLIC
    fronts = next((it for it in range(1, len(after) + 1) if after[it:] == before[:len(after) - it]), 0)
    if is_cyclic and before != after and fronts < len(after):
        for record in reversed(after[:fronts]):
            yield f"new record in front: {record.hex().upper()}"
        dropped = len(before) + fronts - len(after)
        if dropped:
            yield f"dropped: {counted(dropped, 'last record')}"
        return
    for number, record in enumerate(after, 1):
        if number > len(before):
            yield f"record {number} appended: {record.hex().upper()}"
        elif record != before[number - 1]:
            yield f"record {number}: {before[number - 1].hex().upper()}, now {record.hex().upper()}"


def of_pin(old: Pin, new: Pin, has_secrets: bool) -> Iterator[Change]:
    """What changed of a PIN; values only where they may be shown."""
    name = f"PIN {new.number}"
    if pin_line(old, False) != pin_line(new, False):
        yield name, f"{pin_line(old, False)}; now {pin_line(new, False)}"
    values = {"value": (old.value, new.value), "unblocking value": (old.unblocking_value, new.unblocking_value)}
    for what, (one, other) in values.items():
        if one != other:
            yield name, f"{what} {one.hex().upper()}, now {other.hex().upper()}" if has_secrets else f"another {what}"


def of_space(old: Card, new: Card) -> Iterator[Change]:
    """What changed of the free space."""
    before, after = (len(old.free_chain), old.free_entries), (len(new.free_chain), new.free_entries)
    if before != after:
        yield "free", f"{counted(before[0], 'block')} and {before[1]} entries, now {after[0]:,} and {after[1]}"
