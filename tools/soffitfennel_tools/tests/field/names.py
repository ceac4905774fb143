"""tools/card --names and --html: the three example cards in words, hostile contents, PINs, files in the way."""

from __future__ import annotations

import json
import random
import re
import stat
from collections.abc import Iterator
from html.parser import HTMLParser
from pathlib import Path

from ...card_image import forms
from ...card_image.known import printable
from .room import CARDS, Room

NAMES = {
    "identity": """EF.ICCID: 89012345678901234567
EF.DIR: A000000063504B43532D3135, 'Field ID', path 3F005015
EF.CIAInfo: serial number 0102030405060708
EF.CIAInfo: made by Field
EF.CIAInfo: label Field identity
certificate: subject C=DE, O=Field Test Organisation for Smart Cards, OU=Identity, CN=Alice Field, ..
certificate: subject C=DE, O=Field CA""",
    "purse": "EF.ICCID: 89012345678901234567",
    "uicc": """EF.ICCID: 89494000000000000001
EF.PL: en, de
EF.DIR: record 1: A0000000871002FFFFFFFF8907090000, 'USIM FieldTest 1'
EF.ADN: record 1: Alice: +4915112345678
EF.ADN: record 2: Bob: 089123456
EF.FDN: nothing was written
EF.MSISDN: record 1: Own: +491700000001
EF.IMSI: 001010123456789
EF.LI: en, de
EF.UST: services 2 FDN, 3 extension 2, 4 SDN, 5 extension 3, 8 outgoing calls, 9 incoming calls, 10 SMS, 12 SMSP, ..
EF.ACC: classes 2
EF.FPLMN: nothing was written
EF.LOCI: TMSI FFFFFFFF, network 901 70, area 0000, not updated
EF.PSLOCI: P-TMSI FFFFFFFF, network 901 70, area 0000, routing area FF, not updated
EF.AD: normal, a network's own code has 2 digits
EF.SPN: Field Test
EF.MSISDN: record 1: Own: +491700000001
EF.FDN: nothing was written
EF.OPLMNwAcT: 901 70: UTRAN
EF.HPLMNwAcT: 901 70: UTRAN
EF.PLMNwAcT: nothing was written""",
}
# contents by hand, from the tables of TS 102 221, TS 31.102, ISO/IEC 7816-15 and X.509
FORMS = (
    ("digits", "981032547698103254F7", "8901234567890123457"),
    ("imsi", "0829341507421212F1", "24351702421211"),
    ("languages", "656EFFFF6672FFFF", "en, fr"),
    ("location", "0102030462F2201234FF00", "TMSI 01020304, network 262 02, area 1234, updated"),
    ("operation", "80000003", "type approval, a network's own code has 3 digits"),
    ("operation", "000000", "normal"),
    ("networks", "62F220134010FFFFFF", "262 02, 310 014"),
    ("technologies", "62F220C080FFFFFF0000", "262 02: UTRAN, E-UTRAN, GSM"),
    ("classes", "8001", "classes 0, 15"),
    ("name", "0180041F0430FFFF", "\u041f\u0430"),
    ("dialling", "58" + "FF" * 9 + "0581214365F7" + "FF" * 8, "X: 1234567"),
    ("directory", "61074F05A00000000161024F00", "A000000001|no name"),
    # (of version 3 and of version 1, whose issuer is another one)
    (
        "certificate",
        "30473043A0030201020201013000300C310A300806035504030C014930003027310B3009060355040613024445310C30"
        "0A06035504030C03532C31310A300806035504610C01783000",
        r"subject C=DE, CN=S\,1, OID 550461=x",
    ),
    (
        "certificate",
        "3042303E0201013000300C310A300806035504030C014930003027310B3009060355040613024445310C300A06035504"
        "030C03532C31310A300806035504610C01783000",
        r"subject C=DE, CN=S\,1, OID 550461=x",
    ),
    ("information", "300B020100040142800348654C", "serial number 42|label HeL"),
)
BAD = (
    ("digits", "9A10"),
    ("imsi", "0829"),
    ("location", "01020304"),
    ("networks", "ABCDEF"),
    ("name", "01FE41"),
    ("dialling", "41" * 13),
    ("dialling", "41" + "0C" + "91" * 13),
    ("directory", "61844F05A000000001"),
    ("directory", "610A4F05A0"),
    ("certificate", "3003300102"),
    ("certificate", "30050203010203"),
    ("certificate", "3082FFFF3003"),
    ("information", "0401FF"),
)
HOSTILE = '<script>x</script><img src="x" onerror=y>'
TAGS = set(
    "html head meta title style body main h1 h2 ul li code b br small dl dt dd details summary pre table tr th td"
    " svg rect text".split()
)
LINK = re.compile(r"https?://(?!www\.w3\.org/2000/svg)")


class Tags(HTMLParser):
    """The tags and attributes of a page."""

    def __init__(self) -> None:
        super().__init__()
        self.tags: set[str] = set()
        self.attributes: set[str] = set()

    def handle_starttag(self, tag: str, attrs: list[tuple[str, str | None]]) -> None:
        self.tags.add(tag)
        self.attributes |= {name for name, _ in attrs}


class Hostile(Room):
    """A test with a hostile card."""

    def hostile(self) -> Path:
        """A card whose EF.DIR has markup, whose EF.SPN clears a screen, and whose IMSI is none."""
        label = HOSTILE.encode().hex().upper()
        size = len(HOSTILE)
        text = (CARDS / "uicc.card").read_text(encoding="ascii")
        record = f"61{size + 9:02X}4F05A00000000150{size:02X}{label}"
        text = text.replace("2F00 linear 48 x 4", "2F00 linear 60 x 4")
        text = re.sub(r"record 61244F10\w+", f"record {record}", text)
        text = text.replace("content 004669656C642054657374", "content 001B5B324A")
        text = text.replace("content 080910101032547698", "content 09AABBCCDDEEAABBCC")
        image = self.room / "hostile.image"
        self.tool("issue", self.file(text), image)
        return image


class Names(Hostile):
    """Well-known files in words."""

    def named(self, image: Path) -> list[str]:
        """What is shown of names."""
        lines = [it.lstrip("|`- ") for it in self.tool("card", "--names", image).splitlines()]
        return [it for it in lines if it.startswith(("EF.", "certificate:"))]

    def test_the_example_cards(self) -> None:
        for kind, wanted in NAMES.items():
            came = self.named(self.image(kind))
            for line, it in zip(wanted.splitlines(), came, strict=True):
                self.assertTrue(it.startswith(line[:-2]) if line.endswith("..") else it == line, (kind, line, it))

    def test_json(self) -> None:
        image = self.image("uicc")
        files = {it["path"]: it for it in json.loads(self.tool("card", "--json", "--names", image))["files"]}
        wanted = {"name": "EF.IMSI", "source": "3GPP TS 31.102", "words": ["001010123456789"]}
        self.assertEqual(files["3F00/7FF0/6F07"]["known"], wanted)
        self.assertNotIn("known", files["3F00/2F08"])
        self.assertNotIn("known", self.tool("card", "--json", image))

    def test_forms(self) -> None:
        for form, content, wanted in FORMS:
            came = "|".join(getattr(forms, form)(bytes.fromhex(content)))
            self.assertEqual(came, wanted, (form, content))

    def test_bad_contents(self) -> None:
        taken = []
        for form, content in BAD:
            try:
                taken.append((form, content, list(getattr(forms, form)(bytes.fromhex(content)))))
            except ValueError:
                continue
        self.assertEqual(taken, [])

    def test_any_content_is_told(self) -> None:
        chance = random.Random(7816)
        words = sorted({form for form, _, _ in FORMS} | {"routing", "certificate"})
        subject = next(self.certificates())
        for _ in range(4000):
            content = bytearray(chance.choice((subject, chance.randbytes(chance.randrange(1, 40)))))
            for _ in range(chance.randrange(4)):
                content[chance.randrange(min(len(content), 200))] = chance.choice((0, 0x30, 0x61, 0x80, 0x84, 0xFF))
            try:
                told = "".join(getattr(forms, chance.choice(words))(bytes(content)))
            except ValueError:
                continue
            self.assertTrue(printable(told).isprintable())

    def certificates(self) -> Iterator[bytes]:
        """The certificates that the description of the identity card has."""
        values = json.loads(self.tool("card", "--json", self.image("identity")))
        return (bytes.fromhex(it["content"]) for it in values["files"] if it["path"][-4:] in ("4545", "4546"))

    def test_hostile_words_move_no_terminal(self) -> None:
        shown = self.tool("card", "--names", self.hostile())
        self.assertIn("EF.SPN: \\u001BÄ2J", shown)
        self.assertTrue(all(it.isprintable() for it in shown.splitlines()))
        self.assertIn(f"'{HOSTILE}'", shown)
        self.assertIn("EF.IMSI: its content hasn't the form of 3GPP TS 31.102", shown)


class Pages(Hostile):
    """A card as one web page."""

    def html(self, *words: object) -> str:
        """The page that the tool writes."""
        path = self.room / "it.html"
        self.tool("card", "--html", path, *words)
        return path.read_text(encoding="utf-8")

    def test_hostile_contents_are_no_markup(self) -> None:
        for image in (self.hostile(), self.image("identity")):
            came, tags = self.html(image), Tags()
            tags.feed(came)
            self.assertEqual(tags.tags - TAGS, set())
            self.assertEqual({it for it in tags.attributes if it.startswith("on") or it in ("src", "href")}, set())
            self.assertIsNone(LINK.search(came))

    def test_a_name_that_is_markup(self) -> None:
        path = self.hostile().rename(self.room / "<b>it&.image")
        came = self.html(path)
        self.assertIn("&lt;script&gt;x&lt;/script&gt;", came)
        self.assertIn("<h1>&lt;b&gt;it&amp;.image</h1>", came)

    def test_its_policy_lets_nothing_in(self) -> None:
        came = self.html(self.image("purse"))
        policy = re.search(r'Content-Security-Policy" content="([^"]+)"', came)
        assert policy
        wanted = r"default-src &#x27;none&#x27;; style-src( &#x27;sha256-[\w+/=]+&#x27;){2}"
        self.assertRegex(policy[1], f"^{wanted}$")

    def test_pins_are_shown_where_asked_for(self) -> None:
        image = self.image("uicc")
        pin = "31323334FFFFFFFF"
        self.assertNotIn(pin, self.html(image))
        self.assertIn(pin, self.html("--secrets", image))

    def test_contents_and_names(self) -> None:
        came = self.html(self.image("uicc"))
        for it in ("EF.IMSI", "001010123456789", "080910101032547698", "PIN 8", "<svg ", "3F00/7FF0/6F07"):
            self.assertIn(it, came)

    def test_no_card(self) -> None:
        path = self.room / "none.image"
        path.write_bytes(bytes(65536))
        came = self.run_tool("card", "--html", self.room / "it.html", path)
        self.assertEqual((came.returncode, came.stderr), (1, ""))
        self.assertIn("none: the memory breaks a rule", (self.room / "it.html").read_text(encoding="utf-8"))

    def test_the_file_is_private_and_no_link_is_followed(self) -> None:
        image, path, other = self.image("purse"), self.room / "it.html", self.room / "other"
        self.html(image)
        self.assertEqual(stat.S_IMODE(path.stat().st_mode), 0o600)
        path.unlink()
        other.write_text("mine")
        path.symlink_to(other)
        came = self.run_tool("card", "--html", path, image)
        self.assertEqual((came.returncode, came.stderr), (4, f"card: {path} is no plain file and stays as it is\n"))
        self.assertEqual(other.read_text(), "mine")

    def test_words_without_effect_are_refused(self) -> None:
        image = self.image("purse")
        for words in (("--html", "it.html", "--json"), ("--html", "it.html", "--diff", image), ("--html", "it.txt")):
            came = self.run_tool("card", *words, image)
            self.assertEqual((came.returncode, came.stderr.count("\n")), (2, 1), words)
