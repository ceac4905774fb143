"""A card for a person: text, and the same as values for JSON."""
from collections.abc import Iterator
from dataclasses import asdict
from itertools import groupby
from typing import Any

from ..explaining.templates import count as counted

from . import layout
from .flash import Flash
from .known import known
from .rollback import Step, steps
from .rule_words import allowed, rule_line
from .tree import Card, File, Pin, Reading

# the bytes of a body that a line shows
LINE_BYTES = 32


def text(reading: Reading, has_secrets: bool, has_content: bool, has_names: bool = False) -> Iterator[str]:
    """The lines that show a card, or why there is none."""
    card, image = reading.card, reading.image
    if image.flash:
        yield from flash_lines(image.flash)
    yield f"memory   {counted(image.pages, 'page')}" + (f", format {card.format}" if card else "")
    if card:
        yield f"card     {'terminated' if card.is_terminated else 'in use'}"
    yield from journal_lines(reading, has_secrets)
    if not card:
        yield from broken_lines(reading)
        return
    free = f"{len(card.free_chain):,} of {counted(card.blocks, 'block')}"
    yield f"free     {free}, {card.free_entries} of {layout.ENTRIES} entries"
    yield ""
    yield from tree_lines(card, card.files[0], "", "", has_content, has_names)
    yield ""
    yield from pin_lines(card.pins, has_secrets)


def flash_lines(flash: Flash) -> Iterator[str]:
    """The blocks of a flash: whose turn it is, and how many slots hold what."""
    small = ", small sectors" if flash.kind.has_small_sectors else ""
    yield f"flash    {len(flash.areas)} areas of {flash.kind.slots:,} slots{small}, turn {flash.turn}:" \
        f" the pages are in area {flash.areas[flash.home].name}"
    for area in flash.areas:
        copied = f", {area.copied:,} copied" if area.copied else ""
        blank = f", {area.blank:,} blank" if area.blank else ""
        pages = f"{counted(area.live, 'live page')}{copied}, {area.old:,} old, {area.garbage:,} garbage{blank}"
        yield f"area {area.name}   {closed(area.is_closed)}: {area.used:,} slots used ({pages}), {area.free:,} free"
    yield f"witness  {closed(flash.is_closed(len(flash.areas)))}"


def closed(is_closed: bool) -> str:
    """Whether a block's mark is there."""
    return "closed" if is_closed else "open"


def journal_lines(reading: Reading, has_secrets: bool) -> Iterator[str]:
    """What the journal holds, and what recovery does; values of PINs only where they may be shown."""
    image = reading.image
    if reading.bad_journal:
        place, why = reading.bad_journal
        yield f"journal  bad: {place}: {why}"
    elif not image.gate:
        yield "journal  empty: nothing to roll back"
    else:
        pairs = counted(image.gate, "pair")
        yield f"journal  {pairs}: power failed in a transaction, and the next power-on rolls it back:"
        for step in steps(reading):
            yield f"         {step.place}: {change_line(step, has_secrets)}"


def change_line(step: Step, has_secrets: bool) -> str:
    """The word that recovery replaces, and the one that it writes."""
    if step.is_hidden(has_secrets):
        return "back to the value before (--secrets shows it)"
    return "unchanged" if step.now == step.earlier else f"{step.now:08X} back to {step.earlier:08X}"


def broken_lines(reading: Reading) -> Iterator[str]:
    """Why the memory holds no card."""
    yield "card     none: " + ("a bad journal" if reading.bad_journal else "the memory breaks a rule")
    for it in reading.breaks:
        yield f"rule {it.rule}   {it.place}: {it.why}"


def tree_lines(
    card: Card, file: File, first: str, further: str, has_content: bool, has_names: bool
) -> Iterator[str]:
    """A file and all below it; `first` is before its own line, `further` before the others."""
    yield f"{first}{file_line(file)}"
    children = card.children(file)
    inner = further + ("|   " if children else "    ")
    yield f"{inner}{rule_line(file.entry.rule, file.is_directory)}{rule_note(file)}"
    if has_names:
        yield from (f"{inner}{it}" for it in name_lines(card, file))
    if has_content:
        yield from (f"{inner}{it}" for it in content_lines(file))
    for child in children:
        own, below = ("`-- ", "    ") if child is children[-1] else ("|-- ", "|   ")
        yield from tree_lines(card, child, further + own, further + below, has_content, has_names)


def name_lines(card: Card, file: File) -> Iterator[str]:
    """A well-known file's name, and its content in words."""
    found = known(card, file)
    if found:
        yield from (f"{found.name}: {it}" for it in found.words or ["nothing was written"])


def rule_note(file: File) -> str:
    """That a rule isn't asked yet."""
    return " (not asked in this state)" if file.entry.life_cycle in (1, 3) else ""


def file_line(file: File) -> str:
    """A file's identifier, kind, size and life cycle."""
    entry = file.entry
    parts = [f"{file.identifier}  {'MF' if entry.number == 0 else file.kind + ('' if file.is_directory else ' EF')}"]
    if entry.name_length:
        parts.append(f"name {entry.name.hex().upper()}")
    if file.has_records:
        capacity = counted(file.capacity, "record")
        parts.append(f"{len(file.records)} of {capacity} of {counted(file.record_length, 'byte')}")
    elif not file.is_directory:
        parts.append(counted(file.size, "byte"))
    if entry.short_identifier:
        parts.append(f"short identifier {entry.short_identifier}")
    return ", ".join([*parts, file.life_cycle])


def content_lines(file: File) -> Iterator[str]:
    """The bytes of a transparent EF, or the records of another."""
    if file.has_records:
        for number, record in enumerate(file.records, 1):
            yield f"record {number}: {record.hex().upper()}"
    for start in range(0, 0 if file.has_records else file.size, LINE_BYTES):
        yield f"{start:5}: {file.body[start:start + LINE_BYTES].hex().upper()}"


def pin_line(pin: Pin, has_secrets: bool) -> str:
    """A PIN without its number."""
    state = "enabled" if pin.is_enabled else "disabled"
    unblocking = tries(pin.unblocking_tries, "unblocking try", "unblocking tries")
    line = f"{state}, {tries(pin.tries, 'try', 'tries')}, {unblocking}"
    if has_secrets:
        line += f", value {pin.value.hex().upper()}, unblocking value {pin.unblocking_value.hex().upper()}"
    return line


def tries(number: int, one: str, many: str) -> str:
    """How many tries are left."""
    return f"{number} {one if number == 1 else many}" if number else f"blocked (no {one})"


def pin_lines(pins: list[Pin], has_secrets: bool) -> Iterator[str]:
    """The PINs, those that are alike in one line."""
    for line, group in groupby(pins, lambda it: pin_line(it, has_secrets)):
        numbers = [it.number for it in group]
        name = f"PIN {numbers[0]}" + (f" to {numbers[-1]}" if len(numbers) > 1 else "")
        yield f"{name:<13}{line}"


def values(reading: Reading, has_secrets: bool, has_names: bool = False) -> dict[str, Any]:
    """All that is read, for JSON."""
    card, image = reading.card, reading.image
    journal: dict[str, Any] = {"pairs": image.gate}
    if reading.bad_journal:
        journal["bad"] = dict(zip(("place", "why"), reading.bad_journal))
    else:
        journal["rolls_back"] = [
            {"address": it.address, "place": it.place} | word_values(it, has_secrets) for it in steps(reading)
        ]
    found: dict[str, Any] = {"pages": image.pages, "journal": journal, "is_card": card is not None}
    if image.flash:
        found["flash"] = flash_values(image.flash)
    found["broken"] = [{"rule": it.rule, "place": it.place, "why": it.why} for it in reading.breaks]
    if card:
        found |= {"format": card.format, "is_terminated": card.is_terminated, "blocks": card.blocks}
        found["free"] = {"blocks": len(card.free_chain), "entries": card.free_entries}
        found["files"] = [file_values(it) | (known_values(card, it) if has_names else {}) for it in card.files]
        found["pins"] = [pin_values(it, has_secrets) for it in card.pins]
    return found


def flash_values(flash: Flash) -> dict[str, Any]:
    """The blocks of a flash for JSON."""
    areas = [asdict(it) | {"garbage": it.garbage} for it in flash.areas]
    home = flash.areas[flash.home].name
    return {"has_small_sectors": flash.kind.has_small_sectors, "turn": flash.turn, "home": home,
            "slots": flash.kind.slots, "areas": areas, "is_witness_closed": flash.is_closed(len(flash.areas))}


def word_values(step: Step, has_secrets: bool) -> dict[str, str | None]:
    """The word that recovery replaces, and the one that it writes; null where they may not be shown."""
    if step.is_hidden(has_secrets):
        return {"now": None, "earlier": None}
    return {"now": f"{step.now:08X}", "earlier": f"{step.earlier:08X}"}


def file_values(file: File) -> dict[str, Any]:
    """A file for JSON."""
    entry = file.entry
    found: dict[str, Any] = {"path": file.path, "entry": entry.number, "kind": file.kind}
    found["life_cycle"] = file.life_cycle
    found["rule"] = {"bytes": entry.rule.hex().upper(), "allows": allowed(entry.rule, file.is_directory)}
    if file.is_directory:
        return found | {"name": entry.name.hex().upper() or None}
    found |= {"short_identifier": entry.short_identifier or None, "size": file.size, "blocks": file.blocks}
    if file.has_records:
        found |= {"record_length": file.record_length, "capacity": file.capacity}
        return found | {"records": [it.hex().upper() for it in file.records]}
    return found | {"content": file.body.hex().upper()}


def known_values(card: Card, file: File) -> dict[str, Any]:
    """A well-known file for JSON; nothing for another one."""
    found = known(card, file)
    return {"known": {"name": found.name, "source": found.source, "words": found.words}} if found else {}


def pin_values(pin: Pin, has_secrets: bool) -> dict[str, Any]:
    """A PIN for JSON."""
    found: dict[str, Any] = {"number": pin.number, "is_enabled": pin.is_enabled, "tries": pin.tries}
    found["unblocking_tries"] = pin.unblocking_tries
    if has_secrets:
        found |= {"value": pin.value.hex().upper(), "unblocking_value": pin.unblocking_value.hex().upper()}
    return found
