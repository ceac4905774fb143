"""tools/tear: clients that lose power at each device write, the reports, and what is no session to tear."""
from __future__ import annotations

import json
import os
import shutil
import time
import unittest
from xml.etree import ElementTree

from ...tearing.cutting import Cut, ordered

from .room import TOP, run
from .session import DEBIAN_PYTHON, PATIENCE, PROGRAMS, Session, needs, needs_pyscard

PERSONALISE = TOP / "examples" / "pcsc" / "personalise.apdu"
UPDATE = [DEBIAN_PYTHON, PROGRAMS / "send.py", "002000010831323334FFFFFFFF", "00A4080C045F106F06", "00D60000020102"]
# a bench whose recovered images are spoiled: of a card in a folder of tools/tear, byte AT becomes X
SPOILER = """#!/bin/sh
{program} "$@"
status=$?
case $2 in
  */tear-*/card) printf '{byte}' | dd of="$2" bs=1 seek={place} conv=notrunc 2>/dev/null ;;
esac
exit $status
"""


class Tearing(Session):
    """A test that tears sessions."""

    def torn(self, *words: object, status: int = 0, **env: str) -> str:
        """What tools/tear prints."""
        came = self.run_tool("tear", *words, **env)
        self.assertEqual(came.returncode, status, came.stdout + came.stderr)
        return came.stdout + (came.stderr if status == 2 else "")


class Torn(Tearing):
    """Clients of real card software."""

    @needs("pkcs15-tool", "opensc")
    def test_a_pin_change_of_opensc(self) -> None:
        card = self.image("identity")
        before = card.read_bytes()
        shown = self.torn(card, "--", "pkcs15-tool", "--change-pin", "--pin", "1234", "--new-pin", "4321")
        self.assertRegex(shown, r"11 commands, 6 device writes, 2 different cards; uncut: status 0\n")
        self.assertIn("12 cuts led to 2 of the session's 2 cards", shown)
        self.assertNotIn("status: 0", shown)
        self.assertEqual(card.read_bytes(), before)

    @needs("scriptor", "pcsc-tools")
    def test_a_personalisation_by_scriptor(self) -> None:
        card = self.room / "factory"
        self.bench(card, "")
        words = [
            "--part",
            "2/8",
            "--masks",
            "0001",
            "--junit",
            self.room / "it.xml",
            "--picture",
            self.room / "it.svg",
        ]
        shown = json.loads(self.torn(*words, "--json", card, "--", "scriptor", PERSONALISE))
        self.assertEqual(shown["failed"], 0)
        self.assertGreater(shown["passed"], 5)
        self.assertEqual([it["line"] for it in shown["cases"]][:2], [2, 10])
        suites = ElementTree.parse(self.room / "it.xml").getroot()
        self.assertEqual((suites.attrib["tests"], suites.attrib["failures"]), (str(shown["passed"]), "0"))
        self.assertEqual(len(ElementTree.parse(self.room / "it.svg").findall(".//{*}rect")), shown["passed"] + 1)

    @needs_pyscard
    def test_an_update(self) -> None:
        shown = self.torn("--tap", self.image("purse"), "--", *UPDATE)
        self.assertRegex(shown, r"^TAP version 13\n1\.\.[4-9]\nok 1 - ")
        self.assertNotIn("not ok", shown)


class Faults(Tearing):
    """A card that isn't one of the session's is found."""

    def spoiled(self, place: int, byte: str) -> str:
        """A bench that spoils."""
        path = self.file(SPOILER.format(program=os.environ["BENCH_PROGRAM"], place=place, byte=byte), "spoiler")
        path.chmod(0o700)
        return str(path)

    @needs_pyscard
    def test_no_card(self) -> None:
        card = self.image("purse")
        shown = self.torn("--masks", "0000", card, "--", *UPDATE, status=1, BENCH_PROGRAM=self.spoiled(0, "X"))
        self.assertRegex(shown, r"device write 1, mask 0000: NO CARD after the next power-on")

    @needs_pyscard
    def test_another_card(self) -> None:
        card = self.image("purse")
        # (a byte of PIN 2's value, page 66)
        shown = self.torn(
            "--masks", "0000", card, "--", *UPDATE, status=1, BENCH_PROGRAM=self.spoiled(66 * 64 + 8, "X")
        )
        self.assertIn("a card that the session never passes through", shown)

    @needs_pyscard
    def test_more_tries(self) -> None:
        card = self.image("purse")
        wrong = [DEBIAN_PYTHON, PROGRAMS / "send.py", "002000010830303030FFFFFFFF"]
        self.says(card, {"002000010830303030FFFFFFFF": "63C2"})
        # (the tries of PIN 1, page 65)
        program = self.spoiled(65 * 64 + 3, "\\003")
        shown = self.torn("--masks", "FFFF", card, "--", *wrong, status=1, BENCH_PROGRAM=program)
        self.assertIn("a PIN with more or fewer tries than the session leads to", shown)

    def test_an_earlier_card(self) -> None:
        found = ordered(
            [Cut(1, 0, 1, (0, 2)), Cut(2, 0, 1, (1,)), Cut(3, 0, 1, (0, 2)), Cut(4, 0, 1, (0,)), Cut(4, 1, 1, (0,))]
        )
        self.assertEqual([it.places for it in found], [(0,), (1,), (2,), (0,), (0,)])
        self.assertEqual([bool(it.fault) for it in found], [False, False, False, True, False])

    @needs_pyscard
    def test_another_session(self) -> None:
        random = f'[ -e {self.room}/ran ] && exit; touch {self.room}/ran; exec "$0" "$@"'
        shown = self.torn(
            "--masks", "0000", "--jobs", "1", self.image("purse"), "--", "sh", "-c", random, *UPDATE, status=1
        )
        self.assertIn("power didn't fail: the client's session is another one this time", shown)


class NoSession(Tearing):
    """What can't be torn."""

    def test_refusals(self) -> None:
        card = self.image("purse")
        wrong = {"there is no program no-such": ["no-such"], "the client changes nothing on the card": ["true"]}
        for why, client in wrong.items():
            self.assertIn(why, self.torn(card, "--", *client, status=2))
        (self.room / "tmp").mkdir()
        shown = self.torn("--patience", "1", card, "--", "sleep", "30", status=2, TMPDIR=str(self.room / "tmp"))
        self.assertIn("the client doesn't end within 1 seconds", shown)
        self.assertIn("there is no /none", self.torn("/none", "--", "true", status=2))
        for words in (["--masks", "0"], ["--part", "2/1"], ["--junit", "/none/it.xml"], ["--tap", "--json"]):
            self.torn(*words, card, "--", "true", status=2)
        self.assertEqual(list((self.room / "tmp").iterdir()), [])

    @unittest.skipUnless(shutil.which("pgrep"), "procps isn't installed")
    def test_no_client_goes_on(self) -> None:
        sleep = f"sleep {100_000 + os.getpid()}"
        self.torn("--patience", "1", self.image("purse"), "--", "sh", "-c", f"{sleep} & {sleep}", status=2)
        # (one that is killed may need a moment to end)
        end, look = time.monotonic() + PATIENCE, ["pgrep", "-f", sleep]
        while (left := run(look).stdout) and time.monotonic() < end:
            time.sleep(0.1)
        self.assertEqual(left, "")
