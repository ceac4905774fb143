"""tools/issue: a card from its description and back, closed cards, wrong lines, and files that stay as they are."""
from __future__ import annotations

import fcntl
import json
import os
import stat

from ..small_disk import NO_DISK, fill, left, small_disk
from .room import CARDS, TOP, Room, run

# KiB of a disk: less than a card of 65,536 bytes, and room for one alone
LITTLE, ENOUGH = 40, 80

# cards of many kinds: the script that makes each (examples/)
MADE = (
    "empty",
    "personalise",
    "records_ring",
    "delete_tree",
    "every_entry",
    "life_cycle",
    "end_of_use",
    "create_sizes",
)
SMALL = """pages 1024
file 3F00 df
  rule create EF: PIN 8
file 3F00/2FE2 transparent 10
  short 2
  rule update: PIN 1; read: always
  content 0102
file 3F00/2F00 linear 4 x 3
  rule read: always
  record 01
pin 1
  value "1234"
  puk "12345678"
pin 2 to 8 blocked
"""
# the further lines of a DF
NAMED = '  name "ABC"\n  rule create EF: PIN 8\n'
# what is put in the place of a line of SMALL, and what is said of it
WRONG = {
    ("pages 1024", "pages 1023"): "line 1: the number of pages is a number from 1024 to 4096, and not '1023'",
    ("pages 1024", "page 1024"): "line 1: 'page' is no line of a description",
    ("file 3F00 df", "file 3F00/2F00 df"): "line 2: the first file has to be the MF",
    ("create EF", "make EF"): "line 3: 'make EF' is none of delete, terminate",
    ("create EF: PIN 8", "create EF: PIN 9"): "line 3: 'create EF: PIN 9' is no part of a rule",
    ("create EF: PIN 8", "create EF: PIN 8; create EF: never"): "line 3: 'create EF' has two conditions",
    ("create EF: PIN 8", "0612"): "line 3: 0612 is not an access rule",
    ("3F00/2FE2 transparent 10", "3F00/2FE2 transparent 32768"): "line 4: the size of a transparent EF is a number",
    ("3F00/2FE2 transparent 10", "3F00/7F10/2FE2 transparent 10"): "line 4: no DF 3F00/7F10 is described above",
    ("3F00/2FE2 transparent 10", "3F00/2FE transparent 10"): "line 4: a path is 3F00 and the identifiers below it",
    ("3F00/2FE2 transparent 10", "3F00/3FFF transparent 10"): "line 4: rule 3 of a valid memory",
    ("3F00/2FE2 transparent 10", "3F00/2FE2 opaque 10"): "line 4: kind 'opaque' is none of",
    ("short 2", "short 31"): "line 5: the short identifier is a number from 1 to 30",
    ("content 0102", "content 010"): "line 7: bytes are pairs of hexadecimal digits",
    ("content 0102", "content 01020304050607080910ABCD"): "line 4: 3F00/2FE2 has 10 bytes, and its content 12",
    ("content 0102", "record 0102"): "line 7: a transparent EF has no 'record'",
    ("linear 4 x 3", "linear 256 x 3"): "line 8: the length of a record is a number from 1 to 255",
    ("linear 4 x 3", "linear 4"): "line 8: a linear EF has a size such as '28 x 10'",
    ("2F00 linear 4 x 3", "2FE2 linear 4 x 3"): "line 8: 3F00/2FE2 is described twice",
    ("linear 4 x 3", "linear 4 x 3\n  short 2"): "line 8: 3F00/2F00 has the short identifier 2 of 3F00/2FE2",
    (
        "file 3F00/2F00",
        f"file 3F00/7F10 df\n{NAMED}file 3F00/7F11 df\n{NAMED}file 3F00/2F00",
    ): "line 11: 3F00/7F11 has the name of 3F00/7F10",
    ("  rule read: always\n", ""): "line 8: 3F00/2F00 has no rule",
    ("record 01", "record 0102030405"): "line 8: a record of 3F00/2F00 has 4 bytes, and one that is given 5",
    ("record 01", "records 4"): "line 8: 3F00/2F00 has room for 3 records, and not for 4",
    ('value "1234"', 'value "123456789"'): "line 12: a PIN has 8 bytes in hexadecimal digits",
    ('value "1234"', "value 31323334"): "line 12: a PIN has 8 bytes in hexadecimal digits",
    ('  puk "12345678"\n', ""): "line 11: PIN 1 has no puk",
    ('puk "12345678"', "tries 4"): "line 13: the number of tries is a number from 0 to 3",
    ("pin 2 to 8", "pin 3 to 8"): "PIN 2 isn't described: 'pin 2 blocked' closes one that nobody needs",
    ("pin 2 to 8", "pin 1 to 8"): "line 14: PIN 1 is described twice",
    (
        "transparent 10",
        "transparent 32000\nrule 00\nfile 3F00/2FE3 transparent 32000",
    ): "line 6: 3F00/2FE3 has no room: it lacks",
}


class RoundTrips(Room):
    """A description holds the whole card."""

    def test_cards_come_back(self) -> None:
        for name in MADE:
            card, text, again, by_json = (self.room / f"{name}{it}" for it in (".1", ".card", ".2", ".3"))
            pages = ["--pages", "2048"] if name == "personalise" else []
            script = (TOP / "examples" / f"{name}.script").read_text(encoding="ascii")
            run([str(TOP / "bench"), "-q", "--card", str(card), *pages], stdin=script)
            self.tool("issue", "--describe", card, text)
            self.tool("issue", text, again)
            self.assertEqual(self.tool("card", "--diff", card, again), "", name)
            self.tool("issue", self.file(self.tool("card", "--json", "--secrets", card), f"{name}.json"), by_json)
            self.assertEqual(self.tool("card", "--diff", card, by_json), "", f"{name} by JSON")

    def test_examples_come_back(self) -> None:
        for kind in ("uicc", "identity", "purse"):
            image, text = self.image(kind), self.room / f"{kind}.card"
            self.tool("issue", "--describe", image, text)
            self.tool("issue", text, self.room / kind)
            self.assertEqual((self.room / kind).read_bytes(), image.read_bytes())

    def test_the_factory_card_is_the_same_image(self) -> None:
        factory = self.room / "factory"
        self.bench(factory, "")
        self.tool("issue", "--from", factory, self.room / "again")
        self.assertEqual((self.room / "again").read_bytes(), factory.read_bytes())

    def test_json_gives_the_same_image(self) -> None:
        image = self.image("uicc")
        given = self.file(self.tool("card", "--json", "--secrets", image), "it.json")
        self.tool("issue", given, self.room / "again")
        self.assertEqual((self.room / "again").read_bytes(), image.read_bytes())

    def test_json_errors_name_the_line(self) -> None:
        text = self.tool("card", "--json", "--secrets", self.image("purse"))
        record = next(number for number, it in enumerate(text.split("\n"), 1) if '"path": "3F00/2FE2"' in it) - 1
        wrong = {
            ('"size": 10,', '"size": 0,'): rf"line {record}: the size of a transparent EF is a number",
            ('"size": 10,', '"sizes": 10,'): rf"line {record}: a file has no 'sizes'",
            ('"path": "3F00/2FE2"', '"path": 7'): rf"line {record}: 'path' is a text",
            ('"pages": 1024,', '"pages": 1024'): r"line \d+: no JSON: Expecting ',' delimiter",
        }
        for (old, new), why in wrong.items():
            said = self.refused("issue", self.file(text.replace(old, new, 1), "it.json"), self.room / "out")
            self.assertRegex(said, why)
            self.assertFalse((self.room / "out").exists())
        bare = self.file(self.tool("card", "--json", self.image("identity")), "bare.json")
        self.assertIn("PIN 1 has no value: tools/card --json --secrets", self.refused("issue", bare, self.room / "out"))


class Closed(Room):
    """A card that is issued closed stays as it is issued."""

    def test_examples_are_closed(self) -> None:
        for kind in ("uicc", "identity", "purse"):
            refusals = {"00E40000022FE2": "6982", "00FE0000": "6982"}
            refusals["00E000001962178202412183026F028002001088008A01058C0701000000"] = "6A80"
            refusals["00E000001B62198202412183026F018002000A8A01058C087F00000000000000"] = "6982"
            refusals |= {f"002C000{pin}10" + "3132333435363738" + "31323334FFFFFFFF": "63C9" for pin in (1, 8)}
            self.says(self.image(kind), refusals)

    def test_unblocking_values_are_random(self) -> None:
        image = self.image("uicc")
        first = json.loads(self.tool("card", "--json", "--secrets", image))["pins"]
        self.tool("issue", "--replace", CARDS / "uicc.card", image)
        second = json.loads(self.tool("card", "--json", "--secrets", image))["pins"]
        values = {it["unblocking_value"] for it in first + second}
        self.assertEqual(len(values), 16)

    def test_a_card_is_closed_by_changes(self) -> None:
        card, out = self.room / "open", self.room / "closed"
        self.bench(card, "")
        settings = self.file('# private\npin8.puk = "87654321"\npin1.value = 3939393939393939\n', "settings")
        words = [
            "--from",
            card,
            "--set",
            "mf.rule=terminate: never",
            "--set",
            "pin*.puk=random",
            "--settings",
            settings,
        ]
        self.tool("issue", *words, "--set", "2FE2.rule=update: PIN 8; read: always", out)
        self.says(out, {"00E40000022FE2": "6982", "00200001083939393939393939": "9000"})
        self.says(out, {"002C0008103837363534333231" + "31323334FFFFFFFF": "9000", "00A4000C022FE2": "9000"})
        self.assertIn("update: PIN 8; read: always", self.tool("card", out))
        self.tool("issue", "--from", out, "--set", "pin3.state=disabled", "--set", "pin3.tries=1", self.room / "third")
        self.assertRegex(self.tool("card", self.room / "third"), r"PIN 3 +disabled, 1 try, 10 unblocking tries")

    def test_no_secret_on_a_command_line(self) -> None:
        card = self.image("purse")
        for key in ("value", "puk"):
            said = self.refused("issue", "--from", card, "--set", f'pin1.{key}="9999"', self.room / "out")
            self.assertIn("every user of this machine sees a command line", said)
            self.assertNotIn("9999", said)

    def test_wrong_changes(self) -> None:
        card = self.image("purse")
        wrong = {"mf.rule": "is no change", "rule=": "there is no", "6F99.rule=7F": "the card has no file 3F00/6F99"}
        wrong |= {
            "pin9.puk=random": "the card has no file",
            "mf.size=7": "a DF has no 'size'",
            "mf.rule=x": "no part of a rule",
        }
        for text, why in wrong.items():
            self.assertIn(why, self.refused("issue", "--from", card, "--set", text, self.room / "out"))
        settings = self.file("\nmf.rule=7F\n", "settings")
        said = self.refused("issue", "--from", card, "--settings", settings, self.room / "out")
        self.assertIn("settings, line 2: 7F is not an access rule", said)


class WrongLines(Room):
    """A wrong line is named, and nothing is written."""

    def test_the_small_card(self) -> None:
        self.tool("issue", self.file(SMALL), self.room / "out")
        self.says(self.room / "out", {"00A4000C022FE2": "9000", "00B0000003": "0102FF9000", "00A4000C022F00": "9000"})
        # (a text that is shorter than a PIN is padded with FF)
        self.says(self.room / "out", {"002000010831323334FFFFFFFF": "9000"})

    def test_each_wrong_line(self) -> None:
        for (old, new), why in WRONG.items():
            self.assertEqual(SMALL.count(old) >= 1, True, old)
            said = self.refused("issue", self.file(SMALL.replace(old, new, 1)), self.room / "out")
            self.assertIn(why, said)
            self.assertFalse((self.room / "out").exists())

    def test_no_text(self) -> None:
        said = self.refused("issue", self.image("purse"), self.room / "out")
        self.assertRegex(said, r"line \d+: (no text in UTF-8|')")
        self.assertIn("No such file", self.refused("issue", self.room / "none", self.room / "out"))
        self.assertIn("Is a directory", self.refused("issue", self.room, self.room / "out"))

    def test_an_image_that_the_program_refuses(self) -> None:
        fake = self.file("#!/bin/sh\n[ $# -gt 0 ] && echo 'no card' >&2 && exit 6\necho mute\n", "fake")
        fake.chmod(0o700)
        said = self.refused("issue", self.file(SMALL), self.room / "out", BENCH_PROGRAM=str(fake))
        self.assertIn("the card's program refuses the image (status 6): no card", said)
        fake.write_text("#!/bin/sh\n[ $# -gt 0 ] && echo 'atr 00\nfree 1 1' && exit 0\necho mute\n", encoding="ascii")
        said = self.refused("issue", self.file(SMALL), self.room / "out", BENCH_PROGRAM=str(fake))
        self.assertIn("the card's program starts another card", said)
        self.assertFalse((self.room / "out").exists())


class Files(Room):
    """Files are private, and those that are there stay."""

    def test_a_private_file(self) -> None:
        image, text = self.image("purse"), self.room / "text"
        self.tool("issue", "--describe", image, text)
        for it in (image, text):
            self.assertEqual(stat.S_IMODE(it.stat().st_mode), 0o600)
        self.assertEqual(sorted(it.name for it in self.room.iterdir()), ["purse.image", "text"])

    def test_nothing_is_overwritten(self) -> None:
        precious = self.file("precious", "precious")
        said = self.refused("issue", CARDS / "purse.card", precious)
        self.assertIn("is there already and stays as it is; --replace", said)
        (self.room / "link").symlink_to(precious)
        self.assertIn("is no plain file", self.refused("issue", "--replace", CARDS / "purse.card", self.room / "link"))
        (self.room / "dangling").symlink_to(self.room / "none")
        self.assertIn("is there already", self.refused("issue", CARDS / "purse.card", self.room / "dangling"))
        self.assertEqual(precious.read_text(encoding="ascii"), "precious")
        self.assertFalse((self.room / "none").exists())
        os.mkfifo(self.room / "fifo")
        self.assertIn("is no plain file", self.refused("issue", "--replace", CARDS / "purse.card", self.room / "fifo"))
        self.assertIn("No such file", self.refused("issue", CARDS / "purse.card", self.room / "none" / "out"))

    def test_a_card_in_use(self) -> None:
        image = self.image("purse")
        before = image.read_bytes()
        with open(image, "rb") as it:
            fcntl.flock(it, fcntl.LOCK_EX)
            self.assertIn("in use", self.refused("issue", "--replace", CARDS / "uicc.card", image))
            self.assertIn("in use", self.refused("issue", "--from", image, self.room / "out"))
        self.assertEqual(image.read_bytes(), before)
        self.tool("issue", "--replace", "--from", image, "--set", "state=terminated", image)
        self.assertRegex(self.tool("card", image), "terminated")

    def test_a_full_disk(self) -> None:
        came = run(["bash", "-c", f"ulimit -f 8; tools/issue {CARDS}/purse.card {self.room}/out"])
        self.assertEqual(came.returncode, 1, came.stderr)
        self.assertRegex(came.stderr, r"\Aissue: .+ can't be written: File too large\n\Z")
        self.assertEqual(list(self.room.iterdir()), [])

    def test_a_small_disk(self) -> None:
        with small_disk(LITTLE) as disk:
            if disk is None:
                self.skipTest(NO_DISK)
            said = self.refused("issue", CARDS / "purse.card", disk / "out")
            self.assertEqual(said, f"issue: {disk}/out can't be written: No space left on device")
            self.assertEqual(left(disk), {})

    def test_a_card_on_a_full_disk(self) -> None:
        with small_disk(ENOUGH) as disk:
            if disk is None:
                self.skipTest(NO_DISK)
            card, text = disk / "out", disk / "text"
            self.tool("issue", CARDS / "purse.card", card)
            fill(disk)
            before = left(disk)
            for words in (("--replace", CARDS / "uicc.card", card), ("--describe", card, text),
                          ("--replace", "--from", card, "--set", "state=terminated", card)):
                said = self.refused("issue", *words)
                self.assertEqual(said, f"issue: {words[-1]} can't be written: No space left on device")
                self.assertTrue(left(disk) == before, words)
