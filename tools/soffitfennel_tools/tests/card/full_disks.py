"""A disk without room: no half of a card or of an output is left, and a card that is there goes on."""
from __future__ import annotations

import subprocess
from pathlib import Path

from ..small_disk import NO_DISK, fill, left, small_disk
from .bench import ATR
from .checks import TOP, Checks
from .faults import CREATE, NO_CARD, SELECT, UPDATE
from .images import data_of, factory
from .kills import Compares

# less than a card of 65,536 bytes, and room for one and a page of its output more
LITTLE, ENOUGH = 40, 80
UNWRITABLE = 4
NO_ROOM = "No space left on device"
# what tools/card writes of a card, by the option
OUTPUTS = {"--pages": "out.svg", "--html": "out.html"}


def run(*words: object, script: str = "") -> tuple[int, list[str], str]:
    """Runs a command: its exit status, the lines printed, and what standard error says."""
    ran = subprocess.run([str(it) for it in words], input=script, capture_output=True, text=True, check=False)
    return ran.returncode, ran.stdout.splitlines(), ran.stderr


def of_cards(checks: Compares, program: str, *options: str) -> bool:
    """The wrapper on a full disk makes no new card, and goes on with one that is there; False without such a disk."""
    bench = [TOP / "bench", "--quiet", "--program", program, *options, "--card"]
    with small_disk(LITTLE) as disk:
        if disk is None:
            return False
        status, printed, told = run(*bench, disk / "card", script="on\n")
        checks.compare("a new card on a small disk: status and output", (NO_CARD, []), (status, printed))
        words = f"error card: the file can't be made: {NO_ROOM} (os error 28)\nbench: status {NO_CARD}: "
        checks.compare("a new card on a small disk: words", words, told[:len(words)])
        checks.compare("a new card on a small disk: files that are left", {}, left(disk))
    with small_disk(5 * ENOUGH) as disk:
        assert disk
        run(*bench, disk / "card", script="on\n")
        fill(disk)
        lines = ["on", CREATE.format("6F11"), UPDATE.format(4), "free"]
        wanted = (0, [ATR, "< 9000", "< 9000", "free 878 61"], "")
        checks.compare("a card on a disk that is full", wanted, run(*bench, disk / "card", script="\n".join(lines)))
        kept = run(*bench, disk / "card", script=f"on\nfree\n{SELECT}\napdu 00B0000004\n")
        checks.compare("what it keeps", (0, [ATR, "free 878 61", "< 9000", "< 010203049000"], ""), kept)
        checks.compare("it is a valid card", 0, run(TOP / "tools" / "card", disk / "card")[0])
        checks.compare("files beside it", {"card", "filler"}, {*left(disk)})
    return True


def of_outputs(checks: Compares) -> bool:
    """tools/card leaves no part of an output, and an earlier one as it was; False without such a disk."""
    with small_disk(ENOUGH) as disk:
        if disk is None:
            return False
        card = disk / "card"
        card.write_bytes(data_of(factory()))
        for option, name in OUTPUTS.items():
            for earlier in (None, b""):
                out = disk / name
                if earlier is not None:
                    run(TOP / "tools" / "card", option, out, card)
                fill(disk)
                before = left(disk)
                checks.compare(f"{option}: an earlier one", earlier is not None, name in before)
                status, printed, told = run(TOP / "tools" / "card", option, out, card)
                checks.compare(f"{option}: status and output", (UNWRITABLE, []), (status, printed))
                checks.compare(f"{option}: words", f"card: {out} can't be written: {NO_ROOM}\n", told)
                checks.compare(f"{option}: the files are as before", True, left(disk) == before)
                (disk / "filler").unlink()
            out.unlink()
    return True


def of_places(checks: Compares, folder: Path) -> None:
    """An output that is there keeps its mode, and a link that leads to it stays."""
    card, out, link = folder / "placed.card", folder / "placed.svg", folder / "link.svg"
    card.write_bytes(data_of(factory()))
    out.touch()
    out.chmod(0o640)
    link.symlink_to(out.name)
    checks.compare("an output over a link", (0, [], ""), run(TOP / "tools" / "card", "--pages", link, card))
    came = (out.stat().st_mode & 0o777, link.is_symlink(), out.read_bytes()[:4])
    checks.compare("its mode, the link, and how it begins", (0o640, True, b"<svg"), came)
    checks.compare("files beside it", {card, out, link}, {*folder.iterdir()})


def check(checks: Checks, program: str, folder: Path) -> None:
    """All of them."""
    room = folder / "disks"
    room.mkdir()
    of_places(checks, room)
    for is_tried, what in ((of_cards(checks, program), "cards"), (of_outputs(checks), "outputs")):
        if not is_tried:
            checks.skip(f"{what} on a full disk: {NO_DISK}")
