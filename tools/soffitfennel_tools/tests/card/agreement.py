"""What tools/card shows of a card, compared with what the bench answers on it; and scripts in two runs on one file."""
import glob
import json
import subprocess
from collections.abc import Iterator
from pathlib import Path
from typing import Any

from .bench import ATR, Bench
from .checks import TOP, Checks

LIFE_CYCLES = {"creation": 1, "initialisation": 3, "deactivated": 4, "activated": 5, "terminated": 12}
STATUS = {"deactivated": "6283", "terminated": "6285"}
BARRED, NO_RECORD = "< 6985", "< 6A83"
# an answer that isn't compared
ANY = None
Line = tuple[str, str | None]


def scripts() -> Iterator[tuple[str, list[str]]]:
    """Each script of rows/ and examples/, with the rows' expectations."""
    for path in sorted(glob.glob(f"{TOP}/rows/*.rows") + glob.glob(f"{TOP}/examples/*.script")):
        with open(path, encoding="latin-1", newline="") as it:
            yield Path(path).name, it.read().split("\n")


def template(file: dict[str, Any]) -> str:
    """The answer of SELECT to a file, in the one spelling of docs/CARD.md."""
    is_directory, kind = file["kind"] == "DF", file["kind"]
    described = bytes.fromhex({"DF": "7821", "transparent": "4121", "linear": "4221", "cyclic": "4621"}[kind])
    if "records" in file:
        described += file["record_length"].to_bytes(2, "big") + bytes([len(file["records"])])
    objects = [(0x82, described), (0x83, bytes.fromhex(file["path"][-4:]))]
    if is_directory and file["name"]:
        objects.append((0x84, bytes.fromhex(file["name"])))
    if not is_directory:
        short = file["short_identifier"]
        objects += [(0x88, bytes([short << 3]) if short else b""), (0x80, file["size"].to_bytes(2, "big"))]
    objects += [(0x8A, bytes([LIFE_CYCLES[file["life_cycle"]]])), (0x8C, bytes.fromhex(file["rule"]["bytes"]))]
    text = b"".join(bytes([tag, len(value)]) + value for tag, value in objects)
    return (bytes([0x62, len(text)]) + text).hex().upper()


def select(path: str, p2: str, le: str) -> str:
    """SELECT by the path from the MF."""
    below = path.split("/")[1:]
    if not below:
        return f"apdu 00A400{p2}023F00{le}"
    return f"apdu 00A408{p2}{2 * len(below):02X}{''.join(below)}{le}"


def may_read(file: dict[str, Any], pins: list[dict[str, Any]]) -> bool:
    """Whether a file's rule allows to read it without a PIN."""
    condition = file["rule"]["allows"].get("read", "never")
    disabled = [f"PIN {it['number']}" for it in pins if not it["is_enabled"]]
    return file["life_cycle"] in ("creation", "initialisation") or condition in ("always", *disabled)


def is_barred(file: dict[str, Any], files: list[dict[str, Any]]) -> bool:
    """Whether a file or one above it is deactivated or terminated."""
    above = [it for it in files if f"{file['path']}/".startswith(f"{it['path']}/")]
    return any(it["life_cycle"] in STATUS for it in above)


def content(card: dict[str, Any], file: dict[str, Any]) -> Iterator[Line]:
    """The lines that read a file, and what they print."""
    barred = is_barred(file, card["files"])
    yield select(file["path"], "0C", ""), ANY
    if "records" in file:
        for number, record in enumerate(file["records"], 1):
            yield f"apdu 00B2{number:02X}0400", BARRED if barred else f"< {record}9000"
        yield f"apdu 00B2{len(file['records']) + 1:02X}0400", BARRED if barred else NO_RECORD
        return
    for at in range(0, file["size"], 256):
        part = file["content"][2 * at:2 * at + 512]
        yield f"apdu 00B0{at:04X}00", BARRED if barred else f"< {part}9000"


def questions(card: dict[str, Any]) -> Iterator[Line]:
    """Lines of a script that ask for all that the bench tells of a card, and what they print by the reader."""
    yield "on", ATR
    yield "free", f"free {card['free']['blocks']} {card['free']['entries']}"
    if card["is_terminated"]:
        yield "apdu 00A40004023F0000", BARRED
        return
    for file in card["files"]:
        yield select(file["path"], "04", "00"), f"< {template(file)}{STATUS.get(file['life_cycle'], '9000')}"
    for pin in card["pins"]:
        yield f"apdu 0020000{pin['number']}", f"< 63C{pin['tries']:X}"
        yield f"apdu 002C000{pin['number']}", f"< 63C{pin['unblocking_tries']:X}"
    for file in card["files"]:
        if file["kind"] != "DF" and may_read(file, card["pins"]):
            yield from content(card, file)


def shown(image: Path, *options: str) -> dict[str, Any]:
    """What tools/card shows of an image, as values."""
    ran = subprocess.run([TOP / "tools/card", "--json", *options, image], stdout=subprocess.PIPE, text=True)
    values: dict[str, Any] = json.loads(ran.stdout)
    return values


def agrees(checks: Checks, bench: Bench, name: str) -> None:
    """Compares what the reader shows of a kept card with what the bench answers on it."""
    lines = list(questions(shown(bench.image)))
    _, came, _ = bench.run("".join(f"{line}\n" for line, _ in lines))
    checks.compare(f"{name}: the number of answers", len(lines), len(came))
    for (line, wanted), answer in zip(lines, came):
        if wanted is not ANY:
            checks.compare(f"{name}: {line}", wanted, answer)


def half(lines: list[str]) -> int:
    """Where a script can go on in a second run: at a later power-on, with nothing pending on the link, and no cut."""
    places = [it for it, line in enumerate(lines) if line == "on"][1:]
    for place in places[len(places) // 2:] + places:
        before = [line for line in lines[:place] if line.startswith(("cut", "lose", "garble"))]
        if not before:
            return place
    return 0


def expected(lines: list[str]) -> list[str]:
    """What rows print."""
    return [it.removeprefix("= ") for it in lines if it.startswith("= ") and not it.startswith("= status")]


def orders(lines: list[str]) -> str:
    """The script of rows."""
    return "\n".join(it for it in lines if not it.startswith("= "))


def on_more_pages(line: str) -> str:
    """A printed line, where the card has 4,096 pages and not 1,024."""
    words = line.split()
    return f"free {int(words[1]) + 3072} {words[2]}" if words[0] == "free" else line


def on_other_cards(checks: Checks, bench: Bench, name: str, lines: list[str]) -> None:
    """Runs the rows on a card of format 1, which the first power-on migrates, and on one of 4,096 pages."""
    bench.image.unlink(missing_ok=True)
    bench.run("\n")
    bench.image.write_bytes(b"TSC1" + bench.image.read_bytes()[4:])
    checks.compare(f"{name} on a migrated card", expected(lines), bench.run(f"on\noff\n{orders(lines)}")[1][1:])
    bench.image.unlink()
    came = bench.run(orders(lines), "--pages", "4096")[1]
    checks.compare(f"{name} on 4,096 pages", [on_more_pages(it) for it in expected(lines)], came)


def in_two_runs(checks: Checks, bench: Bench, name: str, lines: list[str]) -> None:
    """Runs the rows in two halves on one file: they print what one run prints."""
    place = half(lines)
    if not place:
        return
    bench.image.unlink(missing_ok=True)
    for part, some in enumerate((lines[:place], lines[place:]), 1):
        checks.compare(f"{name}, run {part} of two", expected(some), bench.run(orders(some) + "\n" * (part == 1))[1])


def check(checks: Checks, program: str, folder: Path) -> None:
    """Each script on a card in a file: printed as without it, and the card is as the reader shows."""
    bench = Bench(program, folder / "card.image")
    for name, lines in scripts():
        script = orders(lines)
        bench.image.unlink(missing_ok=True)
        plain = subprocess.run([program], input=script.encode("latin-1"), capture_output=True)
        status, printed, told = bench.run(script)
        alike = (plain.returncode, plain.stdout.decode("latin-1").splitlines(), plain.stderr.decode("latin-1"))
        checks.compare(f"{name} with a card in a file", alike, (status, printed, told))
        agrees(checks, bench, name)
        if name.endswith(".rows"):
            in_two_runs(checks, bench, name, lines)
            on_other_cards(checks, bench, name, lines)
