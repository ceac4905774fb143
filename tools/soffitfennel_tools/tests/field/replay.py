"""tools/replay: traces of each form as tests that the same card passes, and traces that are broken."""
from __future__ import annotations

import shutil
import stat
from pathlib import Path

from .room import TOP, Room
from .session import Session, needs

# (a wrong length has no form of T=0, so there is no trace of one)
EXAMPLES = ("first", "personalise", "access", "create")
PCSCD = """01120216 APDU: 00 A4 00 0C 02 2F E2
00000132 SW: 90 00
00000109 APDU: 00 B0 00 00 0A
00000007 SW: 98 10 32 54 76 98 10 32 54 76 90 00
"""
SCRIPTOR = """Using T=1 protocol
> 00 A4 00 0C 02 2F E2
< 90 00 : Normal processing.
> 00 B0 00 00 0A
< 98 10 32 54 76 98 10 32 54 76 90 00 : Normal processing.
> RESET
< OK: 3B 80 81 31 FE 45 8B
> 00 A4 00 04 02 3F 00 00
< 62 12 82 02 78 21 83 02 3F 00 8A 01 05 8C 05 27
18 00 00 00 90 00 : Normal processing.
"""
OPENSC = """P:1; reader-pcsc.c:333:pcsc_transmit:
Outgoing APDU (7 bytes):
00 A4 00 0C 02 2F E2 ...../.
P:1; reader-pcsc.c:244:pcsc_internal_transmit: called
Incoming APDU (2 bytes):
90 00 ..
Outgoing APDU (8 bytes):
00 A4 00 04 02 3F 00 00 .....?..
Incoming APDU (22 bytes):
62 12 82 02 78 21 83 02 3F 00 8A 01 05 8C 05 27 b...x!..?......'
18 00 00 00 90 00 ......
"""
# T=0, as the card of a phone has it: 61XX and GET RESPONSE, in two parts; 6CXX and the command once more
T0 = """> 00 A4 00 04 02 3F 00
< 61 14
> 00 C0 00 00 04
< 62 12 82 02 61 10
> 00 C0 00 00 10
< 78 21 83 02 3F 00 8A 01 05 8C 05 27 18 00 00 00 90 00
> 00 A4 00 0C 02 2F E2
< 90 00
> 00 B0 00 00 00
< 6C 0A
> 00 B0 00 00 0A
< 98 10 32 54 76 98 10 32 54 76 90 00
> 00 A4 00 04 02 2F E2
< 61 19
> 00 20 00 01
< 63 C3
"""
SELECT, MASTER = (
    "apdu 00A4000C022FE2\n= < 9000\n",
    "apdu 00A40004023F0000\n= < 62128202782183023F008A01058C0527180000009000\n",
)
READ = "apdu 00B000000A\n= < 981032547698103254769000\n"
HEAD = "# case a replayed session\non\n"


class Forms(Room):
    """Traces, and the tests that they become."""

    def replayed(self, text: str, *words: str) -> str:
        """The test that a trace becomes, which the factory card passes."""
        came = self.run_tool("replay", *words, self.file(text, "trace"))
        self.assertEqual(came.returncode, 0, came.stderr)
        self.tool("../bench", "-q", "--test", self.file(came.stdout, "it.test"))
        return came.stdout

    def test_text(self) -> None:
        self.assertEqual(self.replayed(PCSCD), HEAD + SELECT + READ)
        self.assertEqual(self.replayed(SCRIPTOR), HEAD + SELECT + READ + "on\n" + MASTER)
        self.assertEqual(self.replayed(OPENSC), HEAD + SELECT + MASTER)
        self.assertEqual(self.replayed(HEAD + SELECT + READ), HEAD + SELECT + READ)
        self.assertEqual(self.replayed(PCSCD, "--status"), HEAD + SELECT + "apdu 00B000000A\n= < *9000\n")

    def test_t0_is_joined(self) -> None:
        other = "apdu 00A40004022FE2\n= < 9000\napdu 00200001\n= < 63C3\n"
        self.assertEqual(self.replayed(T0), HEAD + MASTER + SELECT + READ + other)

    def test_class_a0(self) -> None:
        trace = PCSCD + "> A0 A4 00 00 02 3F 00\n< 9F 1A\n> A0 C0 00 00 02\n< 00 00 90 00\n"
        self.assertEqual(self.replayed(trace, "--without-a0"), HEAD + SELECT + READ)

    def test_pcap(self) -> None:
        for name in EXAMPLES:
            trace, out = self.room / f"{name}.pcap", self.room / f"{name}.test"
            script = TOP / "examples" / f"{name}.script"
            self.tool("bench/pcap", "--quiet", "--atr", trace, script)
            came = self.run_tool("replay", trace, out)
            self.assertEqual(came.returncode, 0, came.stderr)
            shown = self.tool("../bench", "-q", "--test", out)
            commands = script.read_text(encoding="latin-1").count("\napdu ")
            self.assertIn(f"test: {commands} lines compared\ntest: 1 passed, 0 failed", shown, name)

    def test_other_link_types(self) -> None:
        self.tool("bench/pcap", "--quiet", self.room / "it.pcap", TOP / "examples" / "first.script")
        raw = (self.room / "it.pcap").read_bytes()
        wanted = self.run_tool("replay", self.room / "it.pcap").stdout
        for link, skipped in ((1, 14), (113, 16), (276, 20)):
            made, at = raw[:20] + link.to_bytes(4, "little"), 24
            while at < len(raw):
                size = int.from_bytes(raw[at + 8 : at + 12], "little")
                longer = (size + skipped).to_bytes(4, "little")
                made += raw[at : at + 8] + longer + longer + bytes(skipped) + raw[at + 16 : at + 16 + size]
                at += 16 + size
            (self.room / "other").write_bytes(made)
            self.assertEqual(self.run_tool("replay", self.room / "other").stdout, wanted)


class Broken(Room):
    """What is no trace is told, and no test is written."""

    def test_broken_traces(self) -> None:
        self.tool("bench/pcap", "--quiet", self.room / "it.pcap", TOP / "examples" / "first.script")
        raw = (self.room / "it.pcap").read_bytes()
        wrong = {b"": "no command with an answer is found", b"hello\n": "no command with an answer is found"}
        wrong |= {
            raw[:20]: "the file ends within its header",
            raw[:-3]: "packet 2 is cut short",
            raw[:30]: "packet 1 is cut short",
        }
        wrong |= {raw[:20] + b"\x93\0\0\0": "link type 147 isn't known", b"\x0a\x0d\x0d\x0a": "editcap -F pcap IN OUT"}
        wrong |= {
            b"> 00 A4 00 0\n< 90 00\n": "line 1: an odd number",
            b"Outgoing APDU (7 bytes):\n00 A4\n": "line 1: 7 bytes are said",
        }
        for content, why in wrong.items():
            (self.room / "trace").write_bytes(content)
            self.assertIn(why, self.refused("replay", self.room / "trace", self.room / "out"), content)
            self.assertFalse((self.room / "out").exists())
        self.assertIn("No such file", self.refused("replay", self.room / "none"))

    def test_files(self) -> None:
        trace, precious = self.file(PCSCD, "trace"), self.file("precious")
        self.assertIn("stays as it is", self.refused("replay", trace, precious))
        self.run_tool("replay", trace, self.room / "out")
        self.assertEqual(stat.S_IMODE((self.room / "out").stat().st_mode), 0o600)


class OfSessions(Session):
    """Traces of card software on a card become tests that the card passes."""

    def passes(self, before: Path, trace: str) -> None:
        """Replays a trace on a card."""
        out = self.room / "out.test"
        came = self.run_tool("replay", self.file(trace, "trace"), out)
        self.assertEqual(came.returncode, 0, came.stderr)
        self.assertIn("test: 1 passed, 0 failed", self.tool("../bench", "-q", "--test", "--card", before, out))

    @needs("pkcs15-tool", "opensc")
    def test_opensc(self) -> None:
        card, before = self.image("identity"), self.room / "before"
        shutil.copyfile(card, before)
        came = self.with_card(card, "--", "env", "OPENSC_DEBUG=9", "pkcs15-tool", "--verify-pin", "--pin", "1234")
        self.passes(before, came.stderr)

    @needs("scriptor", "pcsc-tools")
    def test_scriptor_by_t0(self) -> None:
        card, before = self.image("uicc"), self.room / "before"
        shutil.copyfile(card, before)
        lines = [
            "00 A4 00 04 02 7F F0",
            "00 C0 00 00 00",
            "00 C0 00 00 26",
            "00 A4 00 0C 02 6F 46",
            "00 B0 00 00 11",
            "",
        ]
        self.passes(before, self.output("--t0", card, "--", "scriptor", "-p", "T=0", stdin="\n".join(lines)))
