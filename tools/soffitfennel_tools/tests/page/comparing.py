"""What the page's parts answer, compared with the bench, explain.rows, bad-line, the prompt and tools/sweep."""
from __future__ import annotations

import base64
import json
import random
import re
import subprocess
import zlib
from collections.abc import Callable, Iterator
from concurrent.futures import ThreadPoolExecutor
from functools import cache
from itertools import zip_longest
from pathlib import Path
from typing import Any

from ...card_image import layout
from ...card_image.image import Image, image_of
from ...card_image.tree import File, read
from ...explaining.templates import Template, fault as template_fault
from ...prompting.names import NAMES, Unclear, line_for
from ...script_lines import ORDERS_THAT_PRINT, fault
from ..checks import Checks

TOP = Path(__file__).resolve().parent.parent.parent.parent.parent
# scripts whose cards are compared, and what cuts them short
CARDS = ("personalise", "records_ring", "delete_tree", "pin_under_cuts", "torn_batch", "end_of_use")
CUT = b"\non\ncut 5 0001\napdu 00A4000C022FE2\napdu 002000010831323334FFFFFFFF\napdu 00D600000A01020304050607080910\n"
MOST_EXPLAINED, MOST_TEMPLATES = 24, 4000
SWEEPS = ("update_binary", "change_pin", "delete_directory")
# what JavaScript has no table of, and what only a file's first line has
NOT_COMPARED = re.compile(r" \([a-z0-9 -]+\), which no order has$|^the file |^it ends with a carriage return and")
PAGES = 1024
# bytes of a script in a link
MOST_SHARED = 65_536
Ask = Callable[[str, Any], Any]


class Tally(Checks):
    """The checks of a page."""

    def true(self, holds: bool, what: str) -> None:
        """Counts a thing that must hold."""
        self.same(holds, True, what)


@cache
def scripts() -> dict[str, bytes]:
    """All scripts of the repository; of a test the lines that run."""
    paths = [
        *(TOP / "examples").glob("**/*.script"),
        *(TOP / "examples").glob("tests/*.test"),
        *TOP.glob("rows/*.rows"),
    ]
    found = {}
    for path in sorted(paths):
        lines = path.read_bytes().splitlines(True)
        kept = lines if path.suffix == ".script" else [it for it in lines if not it.startswith(b"= ")]
        found[str(path.relative_to(TOP))] = b"".join(kept)
    return found


@cache
def wanted_outputs(program: str) -> dict[str, tuple[str, int]]:
    """What the bench prints of each script, and its status."""
    found = {}
    for name, script in scripts().items():
        ran = subprocess.run([program], input=script, stdout=subprocess.PIPE, stderr=subprocess.DEVNULL, check=False)
        found[name] = ran.stdout.decode("latin-1"), ran.returncode
    return found


def compare_outputs(ask: Ask, program: str, tally: Tally, where: str) -> None:
    """Each script by the page's own run and by the bench in the module, and by the bench."""
    came = ask("outputs", [it.decode("latin-1") for it in scripts().values()])
    for (name, wanted), it in zip(wanted_outputs(program).items(), came):
        tally.same((it["mine"], it["status"]), wanted, f"{where}: {name} by the page")
        tally.same(
            (it["bench"]["output"], it["bench"]["status"]), wanted, f"{where}: {name} by the bench in the module"
        )


def explained() -> Iterator[tuple[list[str], dict[int, tuple[str, str]]]]:
    """The cases of explain.rows: the lines, and by the number of an answer its line and its words."""
    lines: list[str] = []
    wanted: dict[int, tuple[str, str]] = {}
    for line in (TOP / "tools/tests/explain.rows").read_text(encoding="utf-8").splitlines():
        if line.startswith("case "):
            if lines:
                yield lines, wanted
            lines, wanted = ["on"], {}
        elif line.startswith("~ "):
            wanted[sum(it.split(" ")[0] in ORDERS_THAT_PRINT for it in lines) - 1] = lines[-1], line[2:]
        elif line and not line.startswith("#"):
            lines.append(line)
    yield lines, wanted


def compare_words(ask: Ask, tally: Tally, where: str) -> None:
    """The words of each answer."""
    cases = list(explained())
    came = ask("words", ["\n".join(lines) + "\n" for lines, _ in cases])
    for said, (_, wanted) in zip(came, cases):
        for at, (line, words) in wanted.items():
            tally.same(said[at] if at < len(said) else None, words, f"{where}: the words of {line[:60]}")


@cache
def explained_scripts(program: str) -> list[tuple[str, bytes, list[str]]]:
    """Some scripts with the words of ./bench --explain."""
    good = [(name, it) for name, it in scripts().items() if "/bad_" not in name]
    chosen = random.Random(9).sample(good, min(len(good), MOST_EXPLAINED))

    def words(script: bytes) -> list[str]:
        command = [str(TOP / "tools/bench/explain"), program]
        ran = subprocess.run(command, input=script, stdout=subprocess.PIPE, stderr=subprocess.DEVNULL, check=False)
        return [it.partition("# ")[2] for it in ran.stdout.decode("latin-1").splitlines()]

    with ThreadPoolExecutor() as pool:
        told = list(pool.map(words, [it for _, it in chosen]))
    return [(name, script, it) for (name, script), it in zip(chosen, told)]


def compare_scripts_words(ask: Ask, program: str, tally: Tally, where: str) -> None:
    """The words of each line of some scripts."""
    wanted = explained_scripts(program)
    came = ask("words", [script.decode("latin-1") for _, script, _ in wanted])
    for (name, _, words), said in zip(wanted, came):
        # (the page knows the card's memory, and may say more)
        differ = [pair for pair in zip_longest(said, words, fillvalue="") if not pair[0].startswith(pair[1] or "?")]
        tally.same(differ[:2], [], f"{where}: the words of {name}")


def some_templates() -> list[bytes]:
    """Templates of CREATE FILE in the scripts, and the same with one byte changed, with and without a right length."""
    found = {
        it
        for script in scripts().values()
        for it in re.findall(rb"(?im)^apdu 00E00000[0-9A-F]{2}(62[0-9A-F]+)", script)
    }
    chance, plain = random.Random(10), sorted(bytes.fromhex(it.decode()) for it in found if len(it) % 2 == 0)
    for template in plain * (1 + MOST_TEMPLATES // (1 + len(plain))):
        at, byte = chance.randrange(len(template)), chance.choice([0, 1, 2, 5, 8, 0x11, 0x7F, 0x80, 0x84, 0x88, 0xFF])
        made = (
            template[:at]
            + chance.choice([bytes([byte]), b"", bytes([byte]) + template[at : at + 1]])
            + template[at + 1 :]
        )
        plain.append(made if chance.random() < 0.5 else made[:1] + bytes([len(made[2:]) & 0x7F]) + made[2:])
    return [it for it in plain if it]


def compare_templates(ask: Ask, tally: Tally, where: str) -> None:
    """The faults and the words of templates, as tools/bench/explain has them."""
    texts = some_templates()
    came = ask("templates", [it.hex() for it in texts])
    differ = [
        (text.hex(), said, wanted)
        for text, said in zip(texts, came)
        if said != (wanted := template_fault(text) or Template(text).in_words())
    ]
    tally.same(differ[:3], [], f"{where}: the words of {len(texts)} templates")


def some_lines() -> list[str]:
    """Lines of all kinds: those of the examples, with one thing changed, and names of the prompt with their words."""
    chance, found = random.Random(7), set()
    for script in scripts().values():
        found |= set(script.decode("latin-1").split("\n"))
    plain = sorted(it for it in found if len(it) < 1100 and not it.endswith("\r"))
    for line in list(plain):
        at, sign = chance.randrange(len(line) + 1), chance.choice(" \t#0gAx-=>;")
        plain.append(
            line[:at] + chance.choice([sign, sign + line[at : at + 1], "", 2 * line[at : at + 1]]) + line[at + 1 :]
        )
    words = [
        "",
        "2FE2",
        "..",
        "name A0000000871002",
        "3F00/2FE2",
        "0",
        "0 256",
        "0 0102",
        "1",
        "next 0102",
        "01FF",
        "9",
        "1 1234",
        "1 1234 5678",
        "1 12345678 123456789",
        "6F01 transparent 10",
        "6F01 cyclic 4 3",
        "6F02 directory",
        "6F02 directory A0",
        "6F01 linear 0 3",
        "card",
        "file 6F01",
        "what",
        "x y z",
    ]
    plain += [f"{name} {it}".rstrip() for name in [*NAMES, "selct", "SELECT", "aapdu", "reset", "onn"] for it in words]
    return plain


def wanted_name(line: str) -> dict[str, str] | None:
    """What the prompt makes of a line."""
    try:
        made = line_for(line) if line.split() else None
    except Unclear as why:
        return {"why": str(why)}
    return None if made is None else {"line": made}


def compare_lines(ask: Ask, tally: Tally, where: str) -> None:
    """Good and bad lines, as tools/bench/bad-line and the prompt have them; a check for each of three questions."""
    lines = some_lines()
    others: dict[str, list[tuple[str, object, object]]] = {
        "whether a line is one": [],
        "its fault": [],
        "its name": [],
    }
    for line, came in zip(lines, ask("lines", lines)):
        why = fault(line.encode("latin-1"), 2, True)
        if came["isGood"] != (why is None):
            others["whether a line is one"].append((line, came["isGood"], why))
        if why and not NOT_COMPARED.search(why) and came["why"] != why:
            others["its fault"].append((line, came["why"], why))
        if line.isascii() and line.isprintable() and came["name"] != wanted_name(line):
            others["its name"].append((line, came["name"], wanted_name(line)))
    for what, differ in others.items():
        tally.same(differ[:3], [], f"{where}: {what}, of {len(lines)} lines")


@cache
def wanted_sweep(path: Path) -> dict[str, Any]:
    """What tools/sweep finds."""
    words, quiet = [str(TOP / "tools/sweep"), "--json", str(path)], subprocess.DEVNULL
    told = json.loads(subprocess.run(words, stdout=subprocess.PIPE, stderr=quiet, check=True).stdout)
    return {
        "answer": f"< {told['answer']}",
        "runs": told["runs"],
        "commits": told["commits"],
        "writes": [[it["words"], it["kind"]] for it in told["writes"]],
        "outcomes": [[it["runs"], it["card"]] for it in told["outcomes"]],
    }


def compare_sweeps(ask: Ask, tally: Tally, where: str) -> None:
    """Every cut of some commands, as tools/sweep has them."""
    for name in SWEEPS:
        path = TOP / "examples/sweep" / f"{name}.script"
        tally.same(ask("sweep", path.read_text(encoding="latin-1")), wanted_sweep(path), f"{where}: the sweep {name}")


def compare_images(ask: Ask, program: str, tally: Tally, where: str, room: Path) -> None:
    """Memory images: the bench's own, damaged ones, and files that are none."""
    card = room / "images.card"
    subprocess.run([program, "--card", card], input=b"on\n", stdout=subprocess.DEVNULL, check=True)
    good, chance = card.read_bytes(), random.Random(8)
    unmarked, deep = b"XXXX" + good[4:], bytearray(good)
    deep[64 * 73 : 64 * 73 + 4] = b"\0\0\xff\xff"
    sizes = [b"", good[:-1], good + bytes(4), good[:-64], good + bytes(64 * 3 * PAGES + 64), chance.randbytes(100)]
    noise = [chance.randbytes(64 * PAGES), bytes(64 * PAGES)]
    images = [good, good + bytes(64), unmarked, bytes(deep), *sizes, *noise]
    came = ask("images", [base64.b64encode(it).decode() for it in images])
    tally.same(came[:4], [None, None, "no card", "no card"], f"{where}: images of the right size")
    for size, it in zip(sizes, came[4:]):
        tally.true("a memory image has 64 bytes a page" in str(it), f"{where}: an image of {len(size)} bytes: {it}")
    tally.same(came[-2:], ["no card", "no card"], f"{where}: noise as an image")


def wanted_card(data: bytes) -> dict[str, Any]:
    """The card in an image, as tools/card reads it."""
    card = read(image_of(data)).card
    assert card
    return {
        "files": [
            [it.path, it.kind, it.entry.life_cycle, it.body.hex().upper(), shown_records(it)] for it in card.files
        ],
        "pins": [
            [it.tries, it.unblocking_tries, it.value.hex().upper(), it.unblocking_value.hex().upper(), it.is_enabled]
            for it in card.pins
        ],
        "terminated": card.is_terminated,
        "free": len(card.free_chain),
        "freeEntries": card.free_entries,
    }


def shown_records(file: File) -> list[str]:
    """The records of a file, if it has any."""
    return [it.hex().upper() for it in file.records] if file.has_records else []


@cache
def some_cards(program: str, room: Path) -> list[bytes]:
    """Images of cards: those that scripts leave, also without power in a transaction, one whose journal names a word
    twice, and one of format 1."""
    found = []
    for name in CARDS:
        card = room / f"{name}.card"
        script = (TOP / "examples" / f"{name}.script").read_bytes()
        # (the lines up to the last loss of power, so that the journal is full)
        for number, lines in enumerate((script, script[: script.rfind(b"\ncut ")] + CUT)):
            place = card.with_suffix(f".{number}")
            subprocess.run([program, "--card", place], input=lines, stdout=subprocess.DEVNULL, check=False)
            found.append(place.read_bytes())
    words = list(image_of(found[0]).words)
    pin = layout.PAGE_WORDS * layout.PIN_PAGE
    words[layout.GATE] = 2
    words[layout.JOURNAL : layout.JOURNAL + 4] = [pin, 2, pin, 1]
    old = list(words)
    old[0] = next(mark for mark, number in layout.FORMATS.items() if number == 1)
    for it in range(layout.PINS):
        old[pin + layout.PAGE_WORDS * it + 6] = 0
    return [*found, Image(tuple(words)).data(), Image(tuple(old)).data()]


def compare_cards(ask: Ask, program: str, tally: Tally, where: str, room: Path) -> None:
    """The cards in images, as tools/card reads them."""
    cards = some_cards(program, room)
    came = ask("cards", [base64.b64encode(it).decode() for it in cards])
    for number, (card, it) in enumerate(zip(cards, came)):
        tally.same(it, wanted_card(card), f"{where}: the card in image {number}")


def fragment(script: str) -> str:
    """A link's fragment of a script, as the page packs it."""
    packer = zlib.compressobj(9, zlib.DEFLATED, -zlib.MAX_WBITS)
    packed = packer.compress(script.encode()) + packer.flush()
    return f"s={base64.urlsafe_b64encode(packed).decode().rstrip('=')}"


def compare_links(ask: Ask, tally: Tally, where: str) -> None:
    """What links hold: a script of at most 65,536 bytes, however short its packed form is, and a line from 1 on."""
    script = "on\nfree\n"
    cases: dict[str, object] = {
        fragment(script): [8, script, None],
        f"{fragment(script)}&l=2": [8, script, 1],
        f"{fragment(script)}&l=1234567": "it has characters that no link has",
        "s=": "it has characters that no link has",
        fragment("#" * MOST_SHARED): [MOST_SHARED, "#" * 9, None],
        fragment("#" * (MOST_SHARED + 1)): "it holds more than 65,536 bytes",
    }
    for came, (text, wanted) in zip(ask("links", list(cases)), cases.items()):
        tally.same(came, wanted, f"{where}: the link {text[:40]} of {len(text)} characters")


def compare_all(ask: Ask, program: str, tally: Tally, where: str, room: Path) -> None:
    """All of these. An error of the page's parts is a failure, and the others go on."""
    steps: dict[str, Callable[[], None]] = {
        "outputs": lambda: compare_outputs(ask, program, tally, where),
        "words": lambda: compare_words(ask, tally, where),
        "templates": lambda: compare_templates(ask, tally, where),
        "words of scripts": lambda: compare_scripts_words(ask, program, tally, where),
        "lines": lambda: compare_lines(ask, tally, where),
        "sweeps": lambda: compare_sweeps(ask, tally, where),
        "cards": lambda: compare_cards(ask, program, tally, where, room),
        "images": lambda: compare_images(ask, program, tally, where, room),
        "links": lambda: compare_links(ask, tally, where),
    }
    for name, step in steps.items():
        try:
            step()
        except RuntimeError as why:
            tally.same(str(why), "no error", f"{where}: {name}")
