"""The readable form of a description: a line for each fact, with the lines of a file or a PIN below its first one."""
from __future__ import annotations

from collections.abc import Iterator

from ..card_image import layout

from .draft import KINDS, STATES, Draft, FileDraft, PinDraft, Wrong, file_draft, number, one_of, with_line
from .rule_text import words_of

# bytes of content that a line shows
LINE_BYTES = 48
NAMES = {value: name for name, value in STATES.items()}


def parse(text: str) -> Draft:
    """The card of a description."""
    draft = Draft()
    part: list[FileDraft | PinDraft] = []
    for line, raw in enumerate(text.split("\n"), 1):
        words = raw.strip()
        if words and not words.startswith("#"):
            part = with_line(line, take, draft, part, line, words)
    return draft


def take(draft: Draft, part: list[FileDraft | PinDraft], line: int, words: str) -> list[FileDraft | PinDraft]:
    """Takes a line, and gives the files or PINs that the next lines are about."""
    key, _, value = words.partition(" ")
    value = value.strip()
    if key == "file":
        path, kind, size = (value.split(None, 2) + ["", "", ""])[:3]
        return [draft.add_file(file_draft(line, path, kind, size))]
    if key == "pin":
        return pins_of(draft, line, value)
    if part:
        for it in part:
            it.put(key, value)
        return part
    if key == "pages":
        draft.pages = number(value, layout.LEAST_PAGES, layout.MOST_PAGES, "the number of pages")
    elif key == "state":
        draft.is_terminated = one_of({"in use": False, "terminated": True}, value, "state")
    else:
        raise Wrong(f"'{key}' is no line of a description; 'file', 'pin', 'pages' and 'state' begin one")
    return part


def pins_of(draft: Draft, line: int, words: str) -> list[FileDraft | PinDraft]:
    """The PINs of a line: a number, or FIRST to LAST, and 'blocked' where nobody needs them."""
    parts = words.split()
    is_blocked = parts[-1:] == ["blocked"]
    parts = parts[: len(parts) - is_blocked]
    if len(parts) not in (1, 3) or (len(parts) == 3 and parts[1] != "to"):
        raise Wrong("a PIN's line is 'pin 1', 'pin 3 to 7', or one of these with 'blocked' behind it")
    first = number(parts[0], 1, layout.PINS, "a PIN's number")
    last = number(parts[-1], first, layout.PINS, "the last PIN's number")
    made = [draft.add_pin(PinDraft(line, it)) for it in range(first, last + 1)]
    if is_blocked:
        for it in made:
            it.block()
    return list(made)


def described(draft: Draft) -> Iterator[str]:
    """The lines that describe a card. They hold the values of its PINs."""
    yield f"pages {draft.pages}"
    yield f"state {'terminated' if draft.is_terminated else 'in use'}"
    for it in draft.files:
        yield ""
        yield from file_lines(it)
    for pin in draft.pins.values():
        yield ""
        yield from pin_lines(pin)


def file_lines(it: FileDraft) -> Iterator[str]:
    """The lines of a file."""
    size = f" {it.record_length} x {it.capacity}" if it.has_records else "" if it.is_directory else f" {it.size}"
    yield f"file {it.path} {next(name for name, kind in KINDS.items() if kind == it.kind)}{size}"
    if it.name:
        yield f"  name {it.name.hex().upper()}"
    if it.short:
        yield f"  short {it.short}"
    if it.state != STATES["activated"]:
        yield f"  state {NAMES[it.state]}"
    yield f"  rule {words_of(it.rule, it.is_directory)}"
    if it.has_records:
        kept = last_used(it.records)
        yield from (f"  record {shown(record)}" for record in it.records[:kept])
        if it.existing != kept:
            yield f"  records {it.existing}"
        return
    body = it.body.rstrip(b"\xff")
    if 0 < len(body) <= LINE_BYTES:
        yield f"  content {shown(body)}"
        return
    yield from (f"  content {body[it:it + LINE_BYTES].hex().upper()}" for it in range(0, len(body), LINE_BYTES))


def last_used(records: list[bytes]) -> int:
    """How many records there are up to the last one with a byte that isn't FF."""
    used = [place for place, it in enumerate(records, 1) if it.rstrip(b"\xff")]
    return used[-1] if used else 0


def shown(data: bytes) -> str:
    """Bytes as a text in quotes, where they are one, else as digits; the FF at their end are left out."""
    data = data.rstrip(b"\xff") or data[:1]
    is_text = len(data) > 1 and all(0x20 <= it < 0x7F and it != 0x22 for it in data)
    return f'"{data.decode("ascii")}"' if is_text else data.hex().upper()


def pin_lines(pin: PinDraft) -> Iterator[str]:
    """The lines of a PIN."""
    yield f"pin {pin.number}"
    yield f"  value {value_shown(pin.value)}"
    yield f"  puk {value_shown(pin.puk)}"
    yield f"  tries {pin.tries}"
    yield f"  puk-tries {pin.puk_tries}"
    yield f"  state {'enabled' if pin.is_enabled else 'disabled'}"


def value_shown(value: bytes) -> str:
    """A PIN's bytes: a text without its padding, or all digits."""
    text = shown(value)
    return text if text.startswith('"') else value.hex().upper()
