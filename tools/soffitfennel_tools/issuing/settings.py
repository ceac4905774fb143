"""Changes to a card's description: KEY=VALUE, such as mf.rule=.. or pin8.puk=random."""
from __future__ import annotations

import re

from ..card_image import layout

from .draft import MF, Draft, FileDraft, PinDraft, Wrong, one_of

SECRET = {"value", "puk"}
PIN = re.compile(r"pin([1-8*])$")


def change(draft: Draft, text: str, is_private: bool) -> None:
    """Carries out one change. A secret on the command line is refused: other users of the machine see it there."""
    target, equals, value = text.partition("=")
    place, dot, key = target.strip().rpartition(".")
    key, value = key.strip(), value.strip()
    if not equals:
        raise Wrong(f"'{text.strip()}' is no change: KEY=VALUE, such as mf.rule=terminate: never")
    if key in SECRET and value != "random" and not is_private:
        raise Wrong(f"every user of this machine sees a command line: put '{target}=..' into a file for --settings")
    if not dot and key == "state":
        draft.is_terminated = one_of({"in use": False, "terminated": True}, value, "state")
        return
    if not dot:
        raise Wrong(f"there is no '{target}': KEY is mf.rule, PATH.rule, PATH.state, pin8.puk, pin*.tries or the like")
    for it in parts_of(draft, place):
        clear(it, key)
        it.put(key, value)


def parts_of(draft: Draft, place: str) -> list[FileDraft | PinDraft]:
    """The file, or the PINs, that a key names."""
    if found := PIN.match(place.lower()):
        numbers = range(1, layout.PINS + 1) if found[1] == "*" else [int(found[1])]
        return [draft.pins[it] for it in numbers]
    path = place.upper()
    path = MF if path == "MF" else path if path.split("/")[0] == MF else f"{MF}/{path}"
    files = [it for it in draft.files if it.path == path]
    if not files:
        raise Wrong(f"the card has no file {path}")
    return list(files)


def clear(it: FileDraft | PinDraft, key: str) -> None:
    """A content that is set takes the place of the old one."""
    if isinstance(it, FileDraft) and key == "content":
        it.body = b""
