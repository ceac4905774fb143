"""Why a command was refused: by the table words/why.table, and by facts of its bytes, the log and the second card."""
from __future__ import annotations

import re
from functools import lru_cache
from pathlib import Path

from . import templates
from .commands import BINARY, OF_AN_EF, Command
from .files import MASTER_FILE, Files, named
from .templates import STATES, Template, count, follow
from .twin import Twin

TABLE = Path(__file__).resolve().parent.parent.parent / "words" / "why.table"
NAMED = re.compile(r"\{(\w+)\}")
CLAUSE = re.compile(r"(!?)(\w+)(?:([=<>])(\w+))?")
# which bit of the rule a command asks, and what that bit allows is called
BITS = {"00B0": 1, "00B2": 1, "00A2": 1, "00D6": 2, "00DC": 2, "8032": 2, "00E2": 3, "00E4": 7}
BITS.update({"00E6": 6, "00E8": 6, "00FE": 6, "0044": 5, "0004": 4})
# the statuses for which the second card shows the files' templates
OF_FILES = ("6982", "6985", "6981", "6A83", "6A84", "6B00", "6282", "6700", "6C")
BLOCK = 60

Fact = int | str | None


@lru_cache(maxsize=None)
def rows() -> dict[str, list[tuple[str, str, str]]]:
    """The table: of each status its commands, conditions and words, in their order."""
    found: dict[str, list[tuple[str, str, str]]] = {}
    for line in TABLE.read_text(encoding="utf-8").splitlines():
        if line and not line.startswith("#"):
            status, commands, condition, words = line.split(" ", 3)
            found.setdefault(status, []).append((commands, condition, words))
    return found


def table_key(status: str) -> str:
    """The status as the table has it: without the digits that count."""
    return status[:3] if status[:3] == "63C" else status[:2] if status[:2] == "6C" else status


def holds(clause: str, facts: dict[str, Fact]) -> bool:
    """Whether one clause of a condition holds."""
    match = CLAUSE.fullmatch(clause)
    if not match:
        raise ValueError(f"words/why.table: {clause!r} is not a clause")
    negated, name, relation, other = match.groups()
    value = facts.get(name)
    if not relation:
        return bool(value) != bool(negated)
    wanted: Fact = other
    if other in facts or isinstance(value, int):
        # (a fact of a file that the log doesn't show isn't there)
        wanted = facts.get(other) if not other[0].isdigit() else int(other, 0)
    if value is None or wanted is None:
        return False
    if relation == "=":
        return value == wanted
    if not (isinstance(value, int) and isinstance(wanted, int)):
        raise ValueError(f"words/why.table: {clause!r} compares what has no order")
    return value < wanted if relation == "<" else value > wanted


def is_met(condition: str, facts: dict[str, Fact]) -> bool:
    """Whether a condition holds: one of its alternatives, each a list of clauses."""
    return condition == "-" or any(all(holds(it, facts) for it in way.split("&")) for way in condition.split("|"))


class Case:
    """A command and its status, and what is known of them."""

    def __init__(self, it: Command, status: str, files: Files, twin: Twin, words: dict[str, dict[str, str]]):
        self.it, self.status, self.files, self.twin, self.words = it, status, files, twin, words

    def why(self) -> str | None:
        """The words of the first row that holds; None where there is none."""
        found = rows().get(table_key(self.status), [])
        mine = [row for row in found if row[0] == "*" or self.it.key in row[0].split(",")]
        if not mine:
            return None
        facts = self.facts()
        for _, condition, words in mine:
            if is_met(condition, facts):
                # (no reason is given by facts that the log doesn't show)
                return words.format_map(facts) if facts.keys() >= set(NAMED.findall(words)) else None
        return None

    def facts(self) -> dict[str, Fact]:
        """All facts; those of files where the bytes alone don't decide."""
        facts = {**self.of_bytes(), **self.of_status()}
        if self.it.fault or self.status in ("6A86", "6D00", "6E00"):
            return facts
        target = self.files.target(self.it)
        if self.files.is_doubtful or table_key(self.status) in OF_FILES:
            above = [] if target is None else [target[:end] for end in range(len(target) + 1)]
            self.twin.refresh(self.files, *above)
            target = self.files.target(self.it)
        facts.update(self.of_place())
        if target is not None and target in self.files.seen:
            facts.update(self.of_file(target), **self.of_rule(target))
        if self.it.key == "00E0":
            facts.update(self.of_new())
        return facts

    def of_bytes(self) -> dict[str, Fact]:
        """What the command's bytes say."""
        it = self.it
        other = f"{'80' if it.key[:2] == '00' else '00'}{it.key[2:]}"
        name = self.words["command"].get(other)
        return {
            "fault": it.fault, "cla": it.given[0], "p1": it.p1, "p2": it.p2, "pin": it.p2, "mode": it.p2 & 7,
            "reference": self.words["pin"].get(f"{it.p2:02X}"), "p1_digits": f"{it.p1:02X}",
            "p2_digits": f"{it.p2:02X}", "digits": it.data.hex().upper(),
            "lc": it.lc, "follow": follow(it.rest, "byte"),
            "sent": len(it.data), "sent_bytes": count(len(it.data), "byte"), "has_data": bool(it.data),
            "has_le": it.expected is not None, "le": it.expected, "short": it.short_identifier(),
            "offset": it.offset(), "end": it.offset() + len(it.data),
            "other_class": name and f"{name} belongs to class {other[:2]}",
        }  # fmt: skip

    def of_status(self) -> dict[str, Fact]:
        """What the digits of a status count."""
        return {"tries": int(self.status[3], 16), "wanted_bytes": count(int(self.status[2:], 16) or 256, "byte")}

    def of_place(self) -> dict[str, Fact]:
        """What the log shows of the current DF, and of files that aren't reached."""
        files, digits = self.files, self.it.data.hex().upper()
        elsewhere = next((at for at in files.seen if named(at) == digits), None)
        names = (file.objects.get(0x84, b"").hex().upper() for file in files.seen.values())
        longer_name = next((name for name in names if name.startswith(digits) and name != digits), None)
        return {
            "directory": named(files.directory), "level": len(files.directory) + 1,
            "card_is_terminated": files.is_terminated,
            "elsewhere": "/".join((MASTER_FILE, *elsewhere)) if elsewhere else None,
            "longer_name": longer_name, "no_step": self.no_step(digits),
        }  # fmt: skip

    def no_step(self, digits: str) -> str:
        """Where a path leaves the files."""
        at = () if self.it.p1 == 8 else self.files.directory
        for step in (digits[place : place + 4] for place in range(0, len(digits), 4)):
            if step in (MASTER_FILE, "3FFF", "FFFF"):
                return f"a path has no step {step}: it begins below the {'MF' if self.it.p1 == 8 else 'current DF'}"
            if (*at, step) not in self.files.seen:
                return f"{named(at)} has no child {step}"
            at = (*at, step)
        return "no file is reached"

    def barred(self, path: tuple[str, ...]) -> str | None:
        """The file at or above a path that is deactivated or terminated."""
        for end in range(len(path) + 1):
            file = self.files.seen.get(path[:end])
            if file and file.state in (0x04, 0x0C):
                return f"{named(path[:end])} is {STATES[file.state]}"
        return None

    def of_file(self, path: tuple[str, ...]) -> dict[str, Fact]:
        """What the target's template says."""
        file = self.files.seen[path]
        has_records = file.kind in ("linear", "cyclic")
        left = file.size - self.it.offset()
        return {
            "file": named(path), "kind": file.kind, "state": file.state, "state_words": STATES.get(file.state),
            "size": file.size if self.it.key in BINARY else None, "size_bytes": count(file.size, "byte"),
            "wanted_words": f"Le asks for {count(self.it.expected or 0, 'byte')}",
            "left_words": f"{left} {'is' if left == 1 else 'are'} left",
            "records": file.records if has_records else None, "records_words": count(file.records, "record"),
            "capacity": file.capacity if has_records else None,
            "length": file.record_length if has_records else None, "length_bytes": count(file.record_length, "byte"),
            "barred": self.barred(path), "parent_barred": self.barred(path[:-1]) if path else None,
        }  # fmt: skip

    def of_rule(self, path: tuple[str, ...]) -> dict[str, Fact]:
        """What the rule says to the command."""
        file = self.files.seen[path]
        bit = BITS.get(self.it.key)
        if self.it.key == "00E0":
            bit = 3 if Template(self.it.data).kind == "DF" else 2
        if bit is None or (self.it.key in OF_AN_EF and file.kind == "DF"):
            return {}
        action = (templates.OF_DF if file.kind == "DF" else templates.OF_EF)[7 - bit]
        parent = self.files.seen.get(path[:-1]) if path else None
        return {
            "allows": file.allows(bit), "action": action, "allows_words": f"{action} {file.allows(bit)}",
            "parent_allows": parent.allows(1) if parent else None,
        }  # fmt: skip

    def of_new(self) -> dict[str, Fact]:
        """What a template for CREATE FILE says, and what it meets."""
        new, files = Template(self.it.data), self.files
        name = new.objects.get(0x84)
        owner = next((at for at, file in files.seen.items() if name and file.objects.get(0x84) == name), None)
        short_owner = files.of_short(new.short) if new.short else None
        blocks, entries = (self.twin.free() if self.status == "6A84" else None) or (None, None)
        cost = -(-new.size // BLOCK) if new.kind != "DF" else 0
        return {
            "template_fault": templates.fault(self.it.data), "new_identifier": new.identifier,
            "new_short": new.short, "short_owner": named(short_owner), "name_owner": named(owner),
            "blocks": blocks, "entries": entries, "cost_words": count(cost, "block"),
        }  # fmt: skip
