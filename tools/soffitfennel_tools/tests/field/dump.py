"""tools/load and tools/export: cards there and back, rules of EF.ARR, and what has no place."""
from __future__ import annotations

import fcntl
import os
import stat

from .room import Room

BOX = "#" * 20
# rules by ETSI TS 102 221, and by what tools/card calls them: read always, update ADM; read PIN 1, update PIN 81
RULES = {
    1: ("800101900080 0102A40683010A950108", "update: PIN 8; read: always; all else: never"),
    2: ("800101A406830101950108 800102A406830181950108", "update: PIN 2; read: PIN 1; all else: never"),
    3: ("80011B9700", "activate, deactivate, update, read: never; all else: never"),
    4: ("800101A010A406830101950108A40683010A950108 8001029700", "update: never; read: PIN 1; all else: never"),
    5: ("800101AF10A406830101950108A406830181950108", "read: never; all else: never"),
    6: ("800101A40683010E950108", "read: never; all else: never"),
    7: ("800101900084 0132A406830101950108", "read: always; all else: never"),
}
TOLD = {
    4: "one of several conditions: only the first is asked",
    5: "condition AF can't be said: never",
    6: "no PIN stands for reference 0E: never",
    7: "the rule of instruction 32 can't be said: it is left out",
}


def fixed(text: str) -> str:
    """Digits as a dump has them; rule 1's mode is split to keep its line short."""
    return (
        text.replace("800101900080 0102", "8001019000800102")
        .replace("900084 0132", "9000840132")
        .replace(" ", "")
        .lower()
    )


def file(identifier: str, template: str, *more: str, above: str = "3f00") -> str:
    """A file of a dump."""
    lines = [
        BOX,
        f"# MF/EF.{identifier}",
        f"# directory: MF ({above})",
        f"# file: EF.{identifier} ({identifier.lower()})",
    ]
    return "\n".join([*lines, f"# RAW FCP Template: {template}", f"select EF.{identifier}", *more, ""])


def template(identifier: str, rule: str, descriptor: str = "82024121", size: str = "80020004") -> str:
    """A template with a rule in EF.ARR."""
    body = f"{descriptor}8302{identifier}8A01058B032F06{rule}{size}8800"
    return f"62{len(body) // 2:02X}{body}".lower()


def arr() -> str:
    """EF.ARR."""
    size = max(len(fixed(it[0])) // 2 for it in RULES.values())
    descriptor = f"82054221{size:04X}{len(RULES):02X}"
    records = [f"update_record {number} {fixed(it[0]).ljust(2 * size, 'f')}" for number, it in RULES.items()]
    return file("2F06", template("2F06", "01", descriptor, f"8002{size * len(RULES):04X}"), *records)


class Loads(Room):
    """Dumps that become cards."""

    def load(self, text: str, *words: str, status: int = 0) -> str:
        """What tools/load says of a dump."""
        came = self.run_tool("load", self.file(text, "dump"), self.room / "out.card", *words)
        self.assertEqual((came.returncode, came.stdout), (status, ""), came.stderr)
        self.assertEqual((self.room / "out.card").exists(), status == 0)
        return came.stderr

    def test_there_and_back(self) -> None:
        for kind in ("uicc", "identity", "purse"):
            card, dump, text, again = (self.room / f"{kind}{it}" for it in (".image", ".dump", ".card", ".again"))
            self.image(kind)
            self.tool("export", card, dump)
            self.assertEqual(stat.S_IMODE(dump.stat().st_mode), 0o600)
            self.assertEqual(self.run_tool("load", dump, text).returncode, 0)
            self.tool("issue", text, again)
            differences = self.run_tool("card", "--diff", card, again).stdout.splitlines()
            self.assertEqual([it for it in differences if not it.startswith(("PIN", "free"))][1:], [], kind)
            self.assertIn("3F00/2F06: created", differences[0])

    def test_rules(self) -> None:
        files = [
            file(f"6F0{number}", template(f"6F0{number}", f"0{number}"), "update_binary 01020304") for number in RULES
        ]
        told = self.load(arr() + "\n".join(files))
        for number, why in TOLD.items():
            self.assertIn(f"load: 3F00/6F0{number} (EF.6F0{number}): {why}\n", told)
        self.assertEqual(told.count("(EF.6F0"), len(TOLD))
        self.tool("issue", self.room / "out.card", self.room / "image")
        shown = self.tool("card", "--json", "--secrets", self.room / "image")
        text = (self.room / "out.card").read_text(encoding="ascii")
        for number, (_, words) in RULES.items():
            self.assertIn(f"file 3F00/6F0{number} transparent 4\n  rule {words}\n  content 01020304\n", text)
        self.assertEqual(shown.count('"tries": 0'), 5)

    def test_another_table(self) -> None:
        self.load(arr() + file("6F02", template("6F02", "02")), "--pins", "81=5,0A=7")
        self.assertIn("rule update: PIN 5; read: PIN 1;", (self.room / "out.card").read_text(encoding="ascii"))

    def test_a_directory_that_the_dump_only_names(self) -> None:
        self.load(arr() + file("6F07", template("6F07", "01"), above="3f00/7ff0"))
        self.assertIn("file 3F00/7FF0 df", (self.room / "out.card").read_text(encoding="ascii"))

    def test_records(self) -> None:
        one = template("6F3A", "01", "8205422100020a", "80020014")
        self.load(arr() + file("6F3A", one, "update_record 1 0102", "update_record 3 0304"))
        text = (self.room / "out.card").read_text(encoding="ascii")
        self.assertIn("  record 0102\n  record FF\n  record 0304\n  records 10\n", text)

    def test_what_has_no_place(self) -> None:
        wrong = {
            file(
                "6F01", template("6F01", "01", "82027921")
            ): "descriptor 79: transparent, linear and cyclic EFs are there",
            file("6F01", template("6F01", "01", size="80028000")): "32,768 bytes: an EF has 1 to 32,767",
            file("6F01", template("6F01", "01", "820542210001ff", "800200ff")): "an EF has at most 254 records",
            file("6F01", template("6F01", "01"), "update_binary 0102030405"): "has 4 bytes, and its content 5",
        }
        for text, why in wrong.items():
            told = self.load(arr() + text, status=1)
            self.assertIn("load: left out: 3F00/6F01 (EF.6F01): ", told)
            self.assertIn(why, told)
            self.assertIn("load: 1 file can't be taken; --leave-out goes on without it", told)
        self.load(arr() + next(iter(wrong)) + file("6F02", template("6F02", "01")), "--leave-out")
        text = (self.room / "out.card").read_text(encoding="ascii")
        self.assertIn("# left out: 3F00/6F01", text)
        self.assertIn("file 3F00/6F02", text)

    def test_more_files_than_there_is_room_for(self) -> None:
        files = [file(f"6F{number:02X}", template(f"6F{number:02X}", "01")) for number in range(70)]
        told = self.load(arr() + "\n".join(files), status=1)
        self.assertEqual(told.count("left out: "), 8)
        self.assertIn("a card has at most 64 files", told)

    def test_broken_dumps(self) -> None:
        wrong = {"": "no file with a template is found", "hello": "no file with a template is found"}
        wrong[arr() + file("6F01", template("6F01", "01"), "update_binary 0x")] = "line 20: '0x' is no bytes"
        wrong[file("6F01", "62zz")] = "line 5: '62zz' is no bytes"
        for text, why in wrong.items():
            self.assertIn(why, self.load(text, status=1))
        self.assertIn("No such file", self.refused("load", self.room / "none", self.room / "out.card"))
        os.truncate(self.file("", "long"), 64_000_001)
        self.assertIn("64,000,000 bytes", self.refused("load", self.room / "long", self.room / "out.card"))
        precious = self.file("precious", "precious")
        came = self.run_tool("load", self.file(arr(), "dump"), precious)
        self.assertEqual((came.returncode, precious.read_text(encoding="ascii")), (1, "precious"))

    def test_exports_that_are_refused(self) -> None:
        (self.room / "zeros").write_bytes(bytes(65536))
        self.assertIn("holds no card", self.refused("export", self.room / "zeros", "-"))
        self.assertIn("No such file", self.refused("export", self.room / "none", "-"))
        self.load(arr())
        self.tool("issue", self.room / "out.card", self.room / "image")
        self.assertIn("has a file 3F00/2F06", self.refused("export", self.room / "image", "-"))
        with open(self.room / "image", "rb") as it:
            fcntl.flock(it, fcntl.LOCK_EX)
            self.assertIn("in use", self.refused("export", self.room / "image", "-"))
