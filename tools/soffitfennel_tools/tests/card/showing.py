"""What tools/card prints of images that are built by hand: text, differences, pictures, and its exit statuses."""
import fcntl
import json
import os
import subprocess
import xml.etree.ElementTree as ElementTree
from pathlib import Path

from .checks import TOP, Checks
from .images import GATE, PAIRS, changed, data_of, factory

# a torn UPDATE BINARY of the factory's file: its word is new, and the commit is missing
TORN = {GATE: 1, PAIRS: 2049, PAIRS + 1: 0x98103254, 2049: 0x01020304}
JOURNAL = [
    "journal  1 pair: power failed in a transaction, and the next power-on rolls it back:",
    "         block 128 (3F00/2FE2), bytes 0 to 3: 01020304 back to 98103254",
]
FACTORY = """memory   1,024 pages, format 2
card     in use
journal  empty: nothing to roll back
free     895 of 896 blocks, 62 of 64 entries

3F00  MF, activated
|   terminate: PIN 8; create DF, create EF, delete child: always; all else: never
`-- 2FE2  transparent EF, 10 bytes, short identifier 2, activated
        update: PIN 1; read: always; all else: never

PIN 1 to 8   enabled, 3 tries, 10 unblocking tries""".split("\n")
VALUES = "value 31323334FFFFFFFF, unblocking value 3132333435363738"
# words changed in the factory's memory, and what is different then
DIFFERENCES: tuple[tuple[dict[int, int], list[str]], ...] = (
    ({}, []),
    ({2049: 0x98FF3254}, ["3F00/2FE2: byte 1: 10, now FF"]),
    ({2049: 0}, ["3F00/2FE2: bytes 0 to 3: 98103254, now 00000000"]),
    ({2049: 0x98103255, 2051: 0x54FFFFFF}, ["3F00/2FE2: byte 3: 54, now 55", "3F00/2FE2: byte 9: 76, now FF"]),
    ({32: 0x02042FE2}, ["3F00/2FE2: activated, now deactivated"]),
    ({2: 1}, ["card: terminated"]),
    ({1040: 2}, ["PIN 1: enabled, 3 tries, 10 unblocking tries; now enabled, 2 tries, 10 unblocking tries"]),
    ({1042: 0}, ["PIN 1: another value"]),
    (TORN, ["journal: 0 pairs to roll back, now 1 pair"]),
)


def card(*words: str | Path) -> tuple[int, list[str], str]:
    """Runs tools/card: the exit status, the lines printed, and what standard error says."""
    ran = subprocess.run([TOP / "tools/card", *words], capture_output=True, text=True, timeout=60)
    return ran.returncode, ran.stdout.splitlines(), ran.stderr


def of_text(checks: Checks, image: Path) -> None:
    """A card, one with a cut, and none."""
    image.write_bytes(data_of(factory()))
    checks.compare("the factory's card", (0, FACTORY, ""), card(image))
    checks.compare("its secrets", True, card("--secrets", image)[1][-1].endswith(VALUES))
    content = f"{'0: 98103254769810325476':>35}"
    checks.compare("its content", True, content in card("--content", image)[1])
    image.write_bytes(data_of(changed(TORN)))
    checks.compare("a cut", (0, [*FACTORY[:2], *JOURNAL, *FACTORY[3:]], ""), card(image))
    image.write_bytes(data_of(changed({1040: 4})))
    wanted = ["memory   1,024 pages", FACTORY[2], "card     none: the memory breaks a rule"]
    wanted.append("rule 8   page 65, word 0: tries of PIN 1: 4 is above 3")
    checks.compare("no card", (1, wanted, ""), card(image))
    checks.compare("no image", 2, card(TOP / "README.md")[0])
    with open(image, "rb") as it:
        fcntl.flock(it, fcntl.LOCK_EX)
        checks.compare("an image in use", True, "is in use" in card(image)[2])


def first_step(*words: str | Path) -> object:
    """The first word that the next power-on writes back, as programs read it."""
    return json.loads("".join(card(*words)[1]))["journal"]["rolls_back"][0]


def of_secrets(checks: Checks, image: Path, other: Path) -> None:
    """A CHANGE REFERENCE DATA that lost power: neither PIN is shown, in whatever form, unless they are asked for."""
    old, new, puk = 0x31323334, 0x39383736, 0x41424344
    pairs = {GATE: 3, PAIRS: 1042, PAIRS + 1: old, PAIRS + 2: 1040, PAIRS + 3: 3}
    # (the last secret: the second word of PIN 8's unblocking value)
    pairs |= {PAIRS + 4: 1157, PAIRS + 5: puk}
    image.write_bytes(data_of(changed({**pairs, 1042: new})))
    other.write_bytes(data_of(changed({1042: new})))
    differences: tuple[str | Path, ...] = ("--diff", image, other)
    ways: list[tuple[str | Path, ...]] = [(image,), ("--content", image), differences]
    for words in ways:
        for form in (words, ("--json", *words)):
            told = "".join(card(*form)[1])
            shown = [it for it in (old, new, puk) if f"{it:08X}" in told or it.to_bytes(4, "big").decode() in told]
            checks.compare(f"no PIN is shown by {' '.join(map(str, form))}", [], shown)
    hidden = "         PIN 1, value: back to the value before (--secrets shows it)"
    others = ["         PIN 1, tries: unchanged", hidden.replace("PIN 1, value", "PIN 8, unblocking value")]
    checks.compare("a hidden PIN's words", [hidden, *others], card(image)[1][3:6])
    pair: dict[str, object] = {"address": 1042, "place": "PIN 1, value", "now": None, "earlier": None}
    checks.compare("a hidden PIN for programs", pair, first_step("--json", image))
    shown_pair = "         PIN 1, value: 39383736 back to 31323334"
    checks.compare("a PIN that is asked for", shown_pair, card("--secrets", image)[1][3])
    pair |= {"now": "39383736", "earlier": "31323334"}
    checks.compare("the same for programs", pair, first_step("--json", "--secrets", image))


def of_no_file(checks: Checks, folder: Path) -> None:
    """What is not a regular file is refused, and nothing waits for a writer."""
    pipe = folder / "pipe"
    os.mkfifo(pipe)
    for path in (pipe, Path("/dev/zero"), Path("/dev/null")):
        said = f"card: {path} is not a regular file; a memory image is one\n"
        checks.compare(f"{path.name} as a card", (2, [], said), card(path))
    checks.compare("a folder as a card", (2, [], f"card: {folder}: Is a directory\n"), card(folder))


def of_differences(checks: Checks, image: Path, other: Path) -> None:
    """Two cards."""
    image.write_bytes(data_of(factory()))
    for changes, wanted in DIFFERENCES:
        other.write_bytes(data_of(changed(changes)))
        checks.compare(f"the difference of {changes}", (1 if wanted else 0, wanted, ""), card("--diff", image, other))
    other.write_bytes(data_of(changed({0: 0})))
    checks.compare("a difference to no card", (2, []), card("--diff", image, other)[:2])


def of_pictures(checks: Checks, image: Path, picture: Path) -> None:
    """A picture has each page once, and marks those that are rolled back."""
    for words, marks in ((factory(), 0), (changed(TORN), 2)):
        image.write_bytes(data_of(words))
        checks.compare("the picture's exit status", 0, card("--pages", picture, image)[0])
        root = ElementTree.parse(picture).getroot()
        titles = [it.text or "" for it in root.iter("{http://www.w3.org/2000/svg}title")][1:]
        pages = [it.partition(":")[0].split(" ") for it in titles]
        count = sum(int(it[-1]) - int(it[1]) + 1 for it in pages)
        frames = [it for it in root.iter("{http://www.w3.org/2000/svg}rect") if it.get("class") == "back"]
        checks.compare("the pages of the picture", 1024, count)
        checks.compare("the pages that are marked, and the legend's", marks, len(frames))


def of_another_file(checks: Checks, image: Path, folder: Path) -> None:
    """A picture overwrites no card, whose name doesn't end in .svg."""
    other = folder / "other.card"
    other.write_bytes(data_of(factory()))
    status, lines, said = card("--pages", other, image)
    checks.compare("a picture over a card", (2, []), (status, lines))
    checks.compare("its reason", True, f"{other} would be SVG: give it a name that ends in .svg" in said)
    checks.compare("the card below it", True, other.read_bytes() == data_of(factory()))
    full = folder / "full.svg"
    full.symlink_to("/dev/full")
    said = f"card: {full} can't be written: No space left on device\n"
    checks.compare("a picture where no room is", (4, [], said), card("--pages", full, image))
    with open("/dev/full", "w", encoding="ascii") as it:
        ran = subprocess.run([TOP / "tools/card", image], stdout=it, stderr=subprocess.PIPE, text=True)
    said = "card: the output can't be written: No space left on device\n"
    checks.compare("a card where no room is", (4, said), (ran.returncode, ran.stderr))
    status, _, said = card("--pages", folder / "none" / "it.svg", image)
    checks.compare("a picture in no folder", (2, True), (status, "there is no folder for " in said))


def check(checks: Checks, folder: Path) -> None:
    """All that it prints."""
    image = folder / "shown.image"
    of_text(checks, image)
    of_secrets(checks, image, folder / "other.image")
    of_no_file(checks, folder)
    of_differences(checks, image, folder / "other.image")
    of_pictures(checks, image, folder / "shown.svg")
    of_another_file(checks, image, folder)
