"""The JSON form of a description: what `tools/card --json --secrets` prints."""
from __future__ import annotations

import json
from json import decoder, scanner  # type: ignore[attr-defined]
from typing import Any

from ..card_image import layout

from .draft import Draft, FileDraft, PinDraft, Wrong, file_draft, number, with_line

OF_CARD = {"pages", "journal", "is_card", "broken", "format", "is_terminated", "blocks", "free", "files", "pins"}
OF_FILE = {"path", "entry", "kind", "life_cycle", "rule", "name", "short_identifier", "size", "blocks", "record_length"}
OF_FILE |= {"capacity", "records", "content"}
OF_PIN = {"number", "is_enabled", "tries", "unblocking_tries", "value", "unblocking_value"}


class Located(dict[str, Any]):
    """An object of JSON, and the line on which it begins."""

    line = 0


class Decoder(json.JSONDecoder):
    """Reads JSON, and keeps the line of each object."""

    def __init__(self) -> None:
        super().__init__()
        self.parse_object = self.located
        self.scan_once = scanner.py_make_scanner(self)

    def located(self, place: tuple[str, int], *rest: Any) -> tuple[Located, int]:
        """An object, and where it ends."""
        made, end = decoder.JSONObject(place, *rest)  # type: ignore[attr-defined]
        found = Located(made)
        found.line = place[0].count("\n", 0, place[1]) + 1
        return found, end


def parse(text: str) -> Draft:
    """The card of a description in JSON."""
    try:
        given = Decoder().decode(text)
    except json.JSONDecodeError as why:
        raise Wrong(f"no JSON: {why.msg}", why.lineno) from None
    except RecursionError:
        raise Wrong("no description: JSON within JSON, too deep", 1) from None
    return with_line(1, card_of, given)


def card_of(given: Any) -> Draft:
    """The card of JSON's outermost object."""
    known(given, OF_CARD, "a card")
    draft = Draft(is_terminated=take(given, "is_terminated", bool, False))
    pages = take(given, "pages", int, layout.LEAST_PAGES)
    draft.pages = number(str(pages), layout.LEAST_PAGES, layout.MOST_PAGES, "the number of pages")
    for it in take(given, "files", list):
        with_line(line_of(it), lambda it=it: draft.add_file(file_of(it)))
    for it in take(given, "pins", list):
        with_line(line_of(it), lambda it=it: draft.add_pin(pin_of(it)))
    return draft


def line_of(given: Any) -> int:
    return given.line if isinstance(given, Located) else 0


def known(given: Any, names: set[str], what: str) -> None:
    """Refuses what is no object, and names that no description has."""
    if not isinstance(given, dict):
        raise Wrong(f"{what} is a JSON object")
    for name in given:
        if name not in names:
            raise Wrong(f"{what} has no '{name}'")


def take(given: dict[str, Any], name: str, kind: type, default: Any = None) -> Any:
    """A value of its type; the default where there is none."""
    value = given.get(name)
    if value is None and default is not None:
        return default
    if not isinstance(value, kind) or (kind is int and isinstance(value, bool)):
        what = {int: "a number", str: "a text", list: "a list", bool: "true or false", dict: "an object"}[kind]
        raise Wrong(f"'{name}' is missing" if value is None else f"'{name}' is {what}")
    return value


def file_of(given: Any) -> FileDraft:
    """A file."""
    known(given, OF_FILE, "a file")
    size, length = take(given, "size", int, 0), take(given, "record_length", int, 0)
    has_records = take(given, "kind", str) in ("linear", "cyclic")
    if has_records and (length < 1 or size % length):
        raise Wrong(f"{size} bytes are no number of records of {length} bytes")
    room = f"{length} x {size // length}" if has_records else str(size) if size else ""
    made = file_draft(line_of(given), take(given, "path", str), given["kind"], room)
    rule = take(given, "rule", dict)
    made.put("rule", take(rule, "bytes", str))
    made.put("state", take(given, "life_cycle", str))
    if short := take(given, "short_identifier", int, 0):
        made.put("short", str(short))
    if name := take(given, "name", str, ""):
        made.put("name", name)
    if content := take(given, "content", str, ""):
        made.put("content", content)
    for it in take(given, "records", list, []):
        made.put("record", it if isinstance(it, str) else "")
    return made


def pin_of(given: Any) -> PinDraft:
    """A PIN, whose values --secrets has written."""
    known(given, OF_PIN, "a PIN")
    pin = PinDraft(line_of(given), int(number(str(take(given, "number", int)), 1, layout.PINS, "a PIN's number")))
    if "value" not in given:
        raise Wrong(f"PIN {pin.number} has no value: tools/card --json --secrets writes it")
    pin.put("value", take(given, "value", str))
    pin.put("puk", take(given, "unblocking_value", str))
    pin.put("tries", str(take(given, "tries", int)))
    pin.put("puk-tries", str(take(given, "unblocking_tries", int)))
    pin.is_enabled = take(given, "is_enabled", bool)
    return pin
