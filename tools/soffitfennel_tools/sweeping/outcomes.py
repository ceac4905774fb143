"""What the parts of a sweep found, joined, as text and as JSON. docs/SWEEP.md describes the lines of a part."""
import json
from collections import Counter, defaultdict
from collections.abc import Iterable, Sequence
from itertools import groupby
from os.path import commonprefix
from typing import Any

from .engine import PROBE
from ..card_image.flash import Kind
from ..card_words import read_table
from ..explaining.commands import OF_PINS
from ..explaining.templates import count

BEFORE, AFTER, UNCHANGED = "as before the command", "as after the command", "as before the command, and as after it"
TAKEN, OTHER = "with a try taken", "neither as before nor as after"
# how many characters of a line, and how many numbers of writes, are shown
SHOWN, MOST_DIGITS, MOST_NUMBERS = 30, 60, 12
Found = tuple[str, ...]  # the free space, and the answer of each line of the probe


class Sweep:
    """A command, its device writes, and what each cut of them left."""

    def __init__(self, parts: list[dict[str, Any]]):
        script, lines = parts[0]["script"].replace("\r\n", "\n"), [line for part in parts for line in part["lines"]]
        orders = [it for it in script.split("\n") if it == PROBE or it and it[0] != "#" and it != "free"]
        self.looks = ["free", *orders[orders.index(PROBE) + 1 :]]
        self.digits = orders[orders.index(PROBE) - 1].removeprefix("apdu ").upper()
        self.name = read_table()["command"].get(self.digits[:4], "the command")
        self.writes, self.depth = [it for it in lines if "kind" in it], lines[-1]["depth"]
        # on a flash: the seeds of its garbage, and its kind
        self.seeds: range | None = parts[0].get("seeds")
        self.kind: Kind | None = parts[0].get("kind")
        self.answer = lines[1]["answer"]
        self.stages = self.stages_from(*(tuple(it["found"]) for it in lines[:2]))
        # the runs with each outcome: those of each cut, and of all; the outcomes are in order of appearance; and the
        # seed of the first run with it
        self.cells: defaultdict[tuple[int, int], Counter[Found]] = defaultdict(Counter)
        self.seed: dict[Found, int] = {}
        for it in sorted((it for it in lines if "mask" in it), key=lambda it: (it["write"], it["number"])):
            self.cells[it["write"], it["mask"]][tuple(it["found"])] += it["runs"]
            self.seed.setdefault(tuple(it["found"]), it.get("seed", 0))
        self.outcomes: Counter[Found] = sum(self.cells.values(), Counter())
        self.runs = self.outcomes.total()
        self.first = {it: cut for cut, runs in reversed(self.cells.items()) for it in runs}
        self.letters = {it: chr(ord("A") + at) if at < 26 else f"A{at}" for at, it in enumerate(self.outcomes)}
        # the writes at which the outcome turns: with no new word it differs from that with all
        self.commits = [it["write"] for it in self.writes
                        if self.cells[it["write"], 0].keys() != self.cells[it["write"], whole(it)].keys()]

    def stages_from(self, before: Found, after: Found) -> dict[Found, str]:
        """The stages of the command, by how what a run found begins. A right PIN has one more, with a try less."""
        stages = {before: BEFORE, after: AFTER} if before != after else {before: UNCHANGED}
        # RESET RETRY COUNTER takes a try of the unblocking value, and the others one of the value
        asked = f"apdu {'002C' if self.digits[:4] == '002C' else '0020'}00{self.digits[6:8]}"
        at = self.looks.index(asked) if asked in self.looks else 0
        if self.digits[:4] in OF_PINS and self.answer == "9000" and before[at].startswith("< 63C"):
            stages.setdefault((*before[:at], f"< 63C{int(before[at][-1], 16) - 1:X}"), TAKEN)
        return stages

    def meaning(self, found: Found) -> str:
        """The card that an outcome is."""
        return next((it for begin, it in self.stages.items() if found[: len(begin)] == begin), OTHER)

    def fault(self, most: int | None = None) -> str:
        """Why the outcomes aren't allowed, or nothing: each is a stage of the command, or they are at most so many."""
        others, came = sum(self.meaning(it) == OTHER for it in self.outcomes), len(self.outcomes)
        if most is None:
            return f"{count(others, 'outcome')} that no stage of the command has" if others else ""
        return f"{count(came, 'outcome')}, where {most} {'is' if most == 1 else 'are'} allowed" if came > most else ""

    def first_cut(self, found: Found) -> str:
        """The first cut with an outcome: the write, and the mask or the operation; and the seed, of several."""
        write, mask = self.first[found]
        if self.seeds is None:
            return f"{write} {mask:04X}"
        return f"{write}.{mask}" + f" seed {self.seed[found]}" * (len(self.seeds) > 1)

    def place(self) -> str:
        """Where the card is, if it is on a flash."""
        if self.seeds is None or self.kind is None:
            return ""
        last = f"s {self.seeds[0]} to {self.seeds[-1]}" if len(self.seeds) > 1 else f" {self.seeds[0]}"
        return f" on {self.kind.name} {'and' if self.kind.has_small_sectors else 'with'} seed{last}"


def whole(write: dict[str, Any]) -> int:
    """The mask of a cut behind a device write, with all its words new; on a flash the number of its operations."""
    return int(write["operations"] if "operations" in write else 2 ** write["words"] - 1)


def size(write: dict[str, Any]) -> str:
    """How many words a device write has; on a flash how many operations."""
    return count(write["operations"], "operation") if "operations" in write else count(write["words"], "word")


def ranges(numbers: Iterable[int]) -> str:
    """Numbers in order, successive ones as a range; of many the first and the last."""
    runs = [[it for _, it in run] for _, run in groupby(enumerate(numbers), lambda it: it[1] - it[0])]
    told = [f"{it[0]}" if len(it) == 1 else f"{it[0]}-{it[-1]}" for it in runs]
    return ", ".join([*told[: MOST_NUMBERS - 2], "..", told[-1]] if len(told) > MOST_NUMBERS else told)


def aligned(*rows: Sequence[str]) -> str:
    """Rows of cells, each column as wide as it needs; nothing for a head alone."""
    widths = [max(map(len, column)) for column in zip(*rows)]
    return "\n".join("  ".join(map(str.ljust, row, widths)).rstrip() for row in rows) if len(rows) > 1 else ""


def differences(sweep: Sweep) -> list[list[str]]:
    """The probe lines whose output differs, from the first difference on."""
    rows = [["line", *sweep.letters.values()]]
    for look, variants in zip(sweep.looks, zip(*sweep.outcomes)):
        same = len(commonprefix(variants)) & ~1 if max(map(len, variants)) > SHOWN else 0
        shown = [look, *(".." * bool(same) + it[same:] for it in variants)]
        if len(set(variants)) > 1:
            rows.append([it if len(it) <= SHOWN else it[: SHOWN - 2] + ".." for it in shown])
    return rows


def table(sweep: Sweep, most: int | None) -> str:
    """The sweep as text: the command, its writes by kind and number of words, and its outcomes."""
    digits, kinds = sweep.digits, defaultdict(list)
    shown = digits if len(digits) <= MOST_DIGITS else f"{digits[: MOST_DIGITS - 16]}..{digits[-8:]}"
    for it in sweep.writes:
        kinds[it["kind"], size(it)].append(it["write"])
    turns = f"the outcome turns at {count(len(sweep.commits), 'write')}: {ranges(sweep.commits)}"
    turns = turns if sweep.commits else "no write turns it"
    writes = [[str(len(it)), *kind, ranges(it)] for kind, it in kinds.items()]
    cards = [[letter, f"{sweep.outcomes[it]:,}", sweep.first_cut(it), sweep.meaning(it)]
             for it, letter in sweep.letters.items()]
    return "\n\n".join(filter(None, [
        f"{sweep.name}, answered {sweep.answer}: {shown}\n"
        f"{count(len(sweep.writes), 'device write')}{sweep.place()}; {turns}\n"
        f"{count(sweep.runs, 'run')}, with at most {count(sweep.depth, 'power-on')} cut;"
        f" {count(len(sweep.outcomes), 'outcome')}, {most or len(sweep.stages)} allowed",
        aligned(["writes", "of", "each", "which"], *writes),
        aligned(["outcome", "runs", "first cut", "the card is found"], *cards),
        aligned(*differences(sweep))]))


def as_json(sweep: Sweep) -> str:
    """The same for programs."""
    seeds = {it: {} if sweep.seeds is None else {"seed": sweep.seed[it]} for it in sweep.outcomes}
    found = [{"runs": runs, "first": sweep.first[it], **seeds[it], "card": sweep.meaning(it),
              "found": [{"line": line, "answer": answer} for line, answer in zip(sweep.looks, it)]}
             for it, runs in sweep.outcomes.items()]
    told = {key: getattr(sweep, key) for key in ("answer", "depth", "runs", "writes", "commits")}
    if sweep.seeds is not None and sweep.kind is not None:
        told |= {"has_small_sectors": sweep.kind.has_small_sectors, "seeds": list(sweep.seeds)}
    return json.dumps({"command": sweep.digits, **told, "outcomes": found}, indent=1)
