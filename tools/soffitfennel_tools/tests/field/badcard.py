"""tools/badcard: the spoiled blocks, by hand; our own reader's end; a careless one, whose flaws are found."""
from __future__ import annotations

import json
import sys
from typing import Any

from ...misbehaving.faults import FAULTS, Moment

from .engines import column, of_page
from .room import TOP, Room

CARELESS = TOP / "tools" / "tests" / "field_programs" / "careless.py"
# the answer 9000 in an I-block of number 0, to a VERIFY query in one of number 1 (ISO/IEC 7816-3, 11.3)
MOMENT = Moment(bytes.fromhex("0040040020000165"), bytes.fromhex("000002900092"), b"last", b"first")
SPOILED = {
    "lrc": "0000029000D2",
    "data": "000002910093",
    "garbled": "000002910092",
    "nad": "2100029000B3",
    "longer": "000003900093",
    "shorter": "000001900091",
    "number": "0040029000D2",
    "pcb": "00E502900077",
    "more": "0020029000B2",
    "no-more": "000002900092",
    "wait": "00C30101C3",
    "field-16": "00C10110D0",
    "field-255": "00C101FF3F",
    "field-0": "00C10100C0",
    "abort": "00C200C2",
    "resynch": "00C000C0",
    "len-ff": "0000FF" + "00" * 255 + "FF",
    "empty": "",
    "one": "00",
    "nak": "00920092",
    "ready": "00800080",
    "twice": b"last".hex().upper(),
    "old": b"first".hex().upper(),
    "bare": "00000000",
    "status-cut": "0000019091",
    "echo": "0040040020000165",
}


class Blocks(Room):
    """What the card sends."""

    def test_each_fault(self) -> None:
        self.assertEqual({name: it.spoil(MOMENT).hex().upper() for name, it in FAULTS.items()}, SPOILED)

    def test_a_card_that_is_played(self) -> None:
        verify = "block 0000040020000125"
        came = self.tool("badcard", "--fault", "lrc@2", stdin=f"on\n{verify}\n{verify}\nblock 00820082\nfree\noff\n")
        self.assertEqual(came.splitlines()[1:], ["< 00000263C3A2", "< 009200D2", "< 00000263C3A2", "free 895 62"])
        came = self.tool("badcard", "--fault", "wait@1", stdin=f"on\n{verify}\nblock 00E30101E3\n{verify}\n")
        self.assertEqual(came.splitlines()[1:], ["< 00C30101C3", "< 00000263C3A2", "< 00920092"])
        came = self.tool("badcard", "--fault", "one@*", stdin=f"on\nblock 00C101FE3E\n{verify}\n{verify}\n")
        self.assertEqual(came.splitlines()[1:], ["< 00E101FE1E", "< 00", "< 00"])


class Sweeps(Room):
    """What readers make of it."""

    def swept(self, *words: object, status: int = 0) -> list[dict[str, Any]]:
        """Each run."""
        came = self.run_tool("badcard", "--sweep", "--json", *words)
        self.assertEqual((came.returncode, came.stderr), (status, ""), came.stdout[-500:])
        reports: list[dict[str, Any]] = json.loads(came.stdout)
        return reports

    def test_our_own_end_takes_no_fault_that_it_can_tell(self) -> None:
        runs = self.swept()
        self.assertEqual(len(runs), 130)
        for it in runs:
            allowed = {"right", "told"} if FAULTS[it["fault"]].can_tell else {"right", "told", "a wrong answer"}
            self.assertIn(it["outcome"], allowed, it)
        repaired = {"lrc", "garbled", "nad", "longer", "resynch", "field-0", "nak", "ready", "one"}
        self.assertEqual({it["outcome"] for it in runs if it["fault"] in repaired}, {"right"})
        self.assertEqual(column(runs), of_page("ours")[1])

    def careless(self, mode: str, faults: str) -> dict[str, str]:
        """What becomes of an INCREASE by a careless end."""
        words = ["--only", faults, "--", sys.executable, CARELESS, mode]
        return {it["fault"]: it["outcome"] for it in self.swept(*words, status=1) if it["command"] == "INCREASE"}

    def test_a_careless_end_is_found(self) -> None:
        wanted = {"lrc": "right", "garbled": "a wrong answer", "one": "a wrong answer", "nak": "carried out 2 times"}
        self.assertEqual(self.careless("careless", ",".join(wanted)), wanted)
        self.assertEqual(self.careless("crash", "nak"), {"nak": "a crash"})

    def test_wrong_words(self) -> None:
        several: list[list[str]] = [
            [],
            ["--fault", "x@1"],
            ["--fault", "lrc"],
            ["--json", "--fault", "lrc@1"],
            ["--sweep", "--", "no-such"],
        ]
        for words in several:
            came = self.run_tool("badcard", *words)
            self.assertEqual((came.returncode, came.stdout), (2, ""), words)
            self.assertIn("error: " if words[-1:] != ["no-such"] else "there is no program", came.stderr)
