"""The files of a port: copies of the crates below the card, the two crates of the device, and C to begin with."""
from __future__ import annotations

import re
import shutil
import tempfile
from collections.abc import Callable
from pathlib import Path

from ..unproving.kit import Failed

TOP = Path(__file__).resolve().parent.parent.parent.parent
FILES, EXAMPLE = Path(__file__).with_name("files"), TOP / "examples" / "chip"
# the endings of files that the toolchain reads only within a port
SUFFIX = ".in"
PARTS = ("src", "specs", "proofs")
LICENSES = ("LICENSE-APACHE", "LICENSE-MIT")
# the crates of the device, and the crates of ours that each uses
OWN = {
    "device_board": "nvm_board",
    "card_device staticlib": "nvm_board undo_journal device_board card_model t1_link command_base card_start card_core "
    "bench_turns card_turns core std_alloc",
}
# The pointer behind which C keeps a card is the library's: these files of it, under the port's name. The proof that
# another thread may use it is not, since a device is an address.
LIBRARY, CARD = "soffitfennel", "card_device"
KEPT = (
    "src/handle.rt", "src/held.rt", "specs/OwningParts.antt", "proofs/Addresses.antt", "proofs/handle", "proofs/held",
)
SENT = re.compile(r"\n// [^\n]*thread[^\n]*\nunsafe impl Send for Handle \{\}\n\Z")


def uses() -> dict[str, list[str]]:
    """Each crate of ours, with those that it uses."""
    found = {}
    for line in (TOP / "crates.txt").read_text(encoding="utf-8").splitlines():
        name, colon, below = line.partition(":")
        if colon and not line.startswith("#"):
            found[name.split()[0]] = below.split()
    return found


def needed(own: dict[str, str] = OWN) -> list[str]:
    """The crates of ours below those of the device, lowest first."""
    known, found = uses(), dict[str, None]()

    def visit(name: str) -> None:
        if name in known and name not in found:
            for below in known[name]:
                visit(below)
            found[name] = None

    for names in own.values():
        for name in names.split():
            visit(name)
    return list(found)


def crates_text(names: list[str], own: dict[str, str] = OWN) -> str:
    """The list of the crates."""
    known = uses()
    lines = [f"{name}: {' '.join(known[name])}".rstrip() for name in names]
    return "\n".join([*lines, *(f"{name}: {below}" for name, below in own.items()), ""])


def keep(crate: Path) -> None:
    """Puts the library's files of the pointer that C keeps into the crate of the card's calls."""
    library = TOP / "crates" / LIBRARY
    for path in (file for it in KEPT for file in [library / it, *(library / it).rglob("*")] if file.is_file()):
        text = path.read_text(encoding="utf-8").replace(f"Rattle.{LIBRARY}.", f"Rattle.{CARD}.")
        place = crate / path.relative_to(library)
        if path.parent.name != "TheSendSync":
            place.parent.mkdir(parents=True, exist_ok=True)
            place.write_text(SENT.sub("", text), encoding="utf-8")


def copy_crates(folder: Path, own: dict[str, str]) -> None:
    """Puts the crates of ours into an empty folder, and the list of all crates."""
    names = needed(own)
    for name in names:
        for part in PARTS:
            if (TOP / "crates" / name / part).is_dir():
                shutil.copytree(TOP / "crates" / name / part, folder / "crates" / name / part)
    (folder / "crates.txt").write_text(crates_text(names, own), encoding="utf-8")


def fill(folder: Path) -> None:
    """Puts the files of a port into an empty folder."""
    copy_crates(folder, OWN)
    for path in sorted(it for it in FILES.rglob("*") if it.is_file()):
        place = folder / path.relative_to(FILES)
        place.parent.mkdir(parents=True, exist_ok=True)
        shutil.copyfile(path, place.with_name(place.name.removesuffix(SUFFIX)))
    keep(folder / "crates" / CARD)
    device = folder / "device"
    device.mkdir()
    for path in sorted(it for it in EXAMPLE.iterdir() if it.is_file()):
        shutil.copyfile(path, device / path.name)
    for name in LICENSES:
        shutil.copyfile(TOP / name, folder / name)


def write_port(folder: Path, fill_it: Callable[[Path], None] = fill) -> None:
    """Writes a port as a new folder, whole or not at all."""
    if folder.is_symlink() or folder.exists():
        raise Failed(f"{folder} is there already: give a new folder")
    if not folder.parent.is_dir():
        raise Failed(f"there is no folder {folder.parent}")
    with tempfile.TemporaryDirectory(prefix=f".{folder.name}-", dir=folder.parent) as name:
        made = Path(name) / "port"
        made.mkdir()
        fill_it(made)
        made.rename(folder)
