"""The files of a port over a flash: the crates below the card, those of the flash, and C to begin with."""
from __future__ import annotations

import shutil
from dataclasses import dataclass
from pathlib import Path

from .slots import HEADER, PAGES, SECTOR_WORDS, SLOTS, SPARE_SECTORS, UNIT, set_size
from .writing import EXAMPLE, FILES, LICENSES, SUFFIX, TOP, copy_crates

FLASH_FILES, FLASH_EXAMPLE = Path(__file__).with_name("flash_files"), TOP / "examples" / "flash"
# the crates of the flash, and the crates of ours that each uses
FLASH, CARD_LIBRARY = "device_flash", "card_device staticlib"
OWN_ON_FLASH = {
    FLASH: "nvm_board flash_device",
    CARD_LIBRARY: "nvm_board flash_moves flash_log flash_board undo_journal device_flash t1_link command_base "
    "card_start card_core card_turns",
}
# what differs there: the flash is made of what the device is
LAYER_TEXTS = {
    "crates/card_device/src/board.rt": {
        "{Device, DeviceFlash}": "{Device, DeviceFlash, flash_of}", "DeviceFlash::new(device)": "flash_of(device)",
    },
    "crates/card_device/src/making.rt": {
        "{Device, DeviceFlash, page}": "{Device, flash_of, page}", "DeviceFlash::new(device)": "flash_of(device)",
    },
}
COUNTED = "logic=proved functions=15"


@dataclass(frozen=True)
class Layer:
    """A layer of ours that a flash needs: its crates, the files of the flash's crate, the functions there, and what
    differs in the README and the header."""

    below: str
    files: Path
    functions: int
    readme: dict[str, str]
    header: dict[str, str]

    def texts(self) -> dict[str, dict[str, str]]:
        """What differs from a port without the layer, by its file."""
        counted = {COUNTED: f"logic=proved functions={self.functions}"}
        return LAYER_TEXTS | {"README.md": counted | self.readme, HEADER: self.header}

    def own(self) -> dict[str, str]:
        """The crates of the flash, and the crates of ours that each uses."""
        return OWN_ON_FLASH | {FLASH: f"{OWN_ON_FLASH[FLASH]} {self.below}"}


READS_WORDS = "/* Reads a word. The address is below FLASH_WORDS. A word that an interrupted call left reads the " \
    "same each time. */"
PROGRAMS_WORDS = "/* Programs words from an address on. All of them are blank. DEVICE_DONE: each was read back, and " \
    "stays without power.\n * Else they may hold anything. No other word changes. */"
# whole units: a slot takes 32 words, 24 of them for its record, and each block has a slot for its close mark
UNITS = Layer("program_units", Path(__file__).with_name("unit_files"), 17, {}, {
    "FLASH_RECORD_WORDS = 18,": "FLASH_RECORD_WORDS = 24,",
    "FLASH_SLOT_WORDS = 20,": "FLASH_SLOT_WORDS = 32,",
    "FLASH_SLOT_WORDS * FLASH_SLOTS + 2,": "FLASH_SLOT_WORDS * (FLASH_SLOTS + 1),",
    "FLASH_WITNESS_WORDS = 2,": "FLASH_WITNESS_WORDS = FLASH_SLOT_WORDS,",
    PROGRAMS_WORDS:
    "/* Programs whole units of FLASH_UNIT_WORDS. All are blank, and none is programmed again behind a program that "
    "returned\n * DEVICE_DONE, until an erase. DEVICE_DONE: each was read back, and stays without power. Else they may "
    "hold anything.\n * No other word changes. */",
})
BLOCK_LAYOUT = """\
/* The flash has three blocks: area A, area B and the witness. Their words have the addresses from 0 on. A word is blank
 * if all its bits are set. An erase is one of a sector. Those of area A have the numbers from 0 on, those of area B
 * follow, and the witness is the last. A sector of an area has FLASH_SECTOR_WORDS, and its last one what is left. */"""
# spare sectors: each sector has whole slots, so that an area has as many sectors as its words need by these
SECTOR_LAYOUT = """\
/* The flash has sectors of FLASH_SECTOR_WORDS, one behind the other, from address 0 on: those of area A, those of area
 * B, the witness, and FLASH_SPARES spare ones. A word is blank if all its bits are set.
 *
 * The card puts a sector that can't be erased into a spare one, and notes it in the map. The map has FLASH_MAP_WORDS
 * with addresses of their own, 20 for each spare. It is blank before the card is made, and is never erased later. */"""
MAP_FUNCTIONS = """\
/* Reads a word of the map. The address is below FLASH_MAP_WORDS. A word that an interrupted call left reads the same
 * each time. */
uint32_t device_read_map(struct device *device, uint32_t at, uint32_t *word);

/* Programs the number of an entry of the map, word 16 of its 20, or later its mark, words 18 and 19: blank words, and
 * no other ones. DEVICE_DONE: each was read back, and stays without power. Else they may hold anything. No other word
 * changes. Number and mark share no program unit. */
uint32_t device_program_map(struct device *device, uint32_t at, const uint32_t *words, uint64_t count);

/* Waits for a message,"""
SPARES = Layer("spare_sectors", Path(__file__).with_name("spare_files"), 19, {
    "the three functions of the flash,": "the five functions of the flash,",
    "the contracts of the three functions,": "the contracts of the five functions,",
}, {
    "six functions": "eight functions",
    BLOCK_LAYOUT: SECTOR_LAYOUT,
    "FLASH_AREA_WORDS = FLASH_SLOT_WORDS * FLASH_SLOTS + 2,":
    "FLASH_WHOLE_WORDS = FLASH_SECTOR_WORDS / FLASH_SLOT_WORDS * FLASH_SLOT_WORDS,\n"
    "    FLASH_SECTORS = (FLASH_SLOT_WORDS * FLASH_SLOTS + 2 + FLASH_WHOLE_WORDS - 1) / FLASH_WHOLE_WORDS,\n"
    "    FLASH_AREA_WORDS = FLASH_SECTORS * FLASH_SECTOR_WORDS,",
    "FLASH_WITNESS_WORDS = 2,": "FLASH_WITNESS_WORDS = FLASH_SECTOR_WORDS,",
    "FLASH_SPARES = 0,": "FLASH_SPARES = 1,",
    "2 * FLASH_AREA_WORDS + FLASH_WITNESS_WORDS,":
    "2 * FLASH_AREA_WORDS + FLASH_WITNESS_WORDS + FLASH_SPARES * FLASH_SECTOR_WORDS,",
    "FLASH_BLOCKS = 3,\n    FLASH_SECTORS = (FLASH_AREA_WORDS + FLASH_SECTOR_WORDS - 1) / FLASH_SECTOR_WORDS\n":
    "FLASH_BLOCKS = 3\n",
    READS_WORDS:
    "/* Reads a word. The address is below FLASH_WORDS + FLASH_MAP_WORDS: spare_map.c puts the map behind the sectors. "
    "A word\n * that an interrupted call left reads the same each time. */",
    PROGRAMS_WORDS:
    "/* Programs words from an address on, all below FLASH_WORDS + FLASH_MAP_WORDS. All of them are blank. "
    "DEVICE_DONE: each\n * was read back, and stays without power. Else they may hold anything. No other word "
    "changes. */",
    "/* Erases a sector, at most 2 * FLASH_SECTORS. DEVICE_DONE: all its words were read back as blank. Else they may "
    "hold\n * anything.":
    "/* Erases a sector, at most 2 * FLASH_SECTORS + FLASH_SPARES + 1: this one is the map's, for spare_map.c. "
    "DEVICE_DONE:\n * all its words were read back as blank. Else they may hold anything.",
    "/* Waits for a message,": MAP_FUNCTIONS,
})
# both: a sector has whole slots of 32 words, and so has the map, one for each spare
BOTH = f"{UNITS.below} {SPARES.below} spare_units"
SPARE_UNITS = Layer(BOTH, Path(__file__).with_name("spare_unit_files"), 19, SPARES.readme, SPARES.header | {
    "FLASH_RECORD_WORDS = 18,": "FLASH_RECORD_WORDS = 24,",
    "FLASH_SLOT_WORDS = 20,": "FLASH_SLOT_WORDS = 32,",
    "FLASH_AREA_WORDS = FLASH_SLOT_WORDS * FLASH_SLOTS + 2,":
    "FLASH_SECTORS = (FLASH_SLOT_WORDS * (FLASH_SLOTS + 1) + FLASH_SECTOR_WORDS - 1) / FLASH_SECTOR_WORDS,\n"
    "    FLASH_AREA_WORDS = FLASH_SECTORS * FLASH_SECTOR_WORDS,",
    "FLASH_MAP_WORDS = 20 * FLASH_SPARES,": "FLASH_MAP_WORDS = FLASH_SLOT_WORDS * FLASH_SPARES,",
    BLOCK_LAYOUT: SECTOR_LAYOUT.replace("The map has FLASH_MAP_WORDS\n * with addresses of their own, 20",
                                        "The map has words\n * with addresses of their own, 20"),
    PROGRAMS_WORDS:
    "/* Programs whole units of FLASH_UNIT_WORDS, all below FLASH_WORDS + FLASH_MAP_WORDS. All are blank, and none is\n"
    " * programmed again behind a program that returned DEVICE_DONE, until an erase. DEVICE_DONE: each was read back, "
    "and\n * stays without power. Else they may hold anything. No other word changes. */",
    "/* Waits for a message,": MAP_FUNCTIONS.replace("below FLASH_MAP_WORDS", "below 20 * FLASH_SPARES").replace(
        "share no program unit.", "have units of their own, and read blank only if all of these do."),
})
# the layer of a flash that has units or not, and spare sectors or not
LAYERS: dict[tuple[bool, bool], Layer | None] = {
    (False, False): None, (True, False): UNITS, (False, True): SPARES, (True, True): SPARE_UNITS}


@dataclass(frozen=True)
class Small:
    """How the crate of a flash says that its sectors are small, of which each step of a move has one: its files, and
    what is called otherwise in them."""

    files: Path
    names: dict[str, dict[str, str]]


SMALL_FILES, SMALL_SPARE_FILES = (Path(__file__).with_name(it) for it in ("small_files", "small_spare_files"))
SMALL_LAW, SMALL_SPECS, SPECS = "src/small.rt", "specs/SmallSectors.antt", "specs/Lib.antt"
SMALL = Small(SMALL_FILES, {SPECS: {"pub mod DeviceSectors": "pub mod DeviceSectors\npub mod SmallSectors"}})
# of units: the same by the frames of a sector
SMALL_UNITS = Small(SMALL_FILES, {
    SPECS: {"pub mod DeviceFrames": "pub mod DeviceFrames\npub mod SmallSectors"},
    SMALL_LAW: {"DeviceFlash": "DeviceUnits", "sector_moves": "program_units", "SectorFlash": "SmallUnitDevice"},
    SMALL_SPECS: {
        "FlashBlocks.{area_size, steps_of}": "FlashBlocks.{steps_of}",
        "SectorSpares.{sector_lead, spare_slot}": "SectorSpares.{sector_lead}",
        "DeviceSectors": "DeviceFrames",
        "spare_slot SLOTS SECTORS device_sector turn (steps_of PAGES)":
        "device_sector (spare_sector SECTORS turn + steps_of PAGES) - device_sector (spare_sector SECTORS turn)\n   ",
        "device_sector": "device_frame",
        "SECTOR_WORDS": "SECTOR_FRAMES",
        "area_size SLOTS": "SLOTS + 1",
        "20 * (STEP_PAGES + 2)": "(STEP_PAGES + 2)",
        "    omega (arith, this)":
        "    let none : spare_sector SECTORS turn + 0 ≡ spare_sector SECTORS turn = omega arith in\n"
        "    let first = begins turn 0 (omega arith) in\n"
        "    let same = ap device_frame none in omega (arith, this, first, same)",
    },
})
SMALL_SPARES = Small(SMALL_SPARE_FILES, {})
SMALL_SPARE_UNITS = Small(SMALL_SPARE_FILES, {
    SMALL_LAW: {"spare_sectors": "spare_units", "SmallSpareDevice": "SmallSpareUnitDevice"},
})
# by the same as the layers
SMALLS = {
    (False, False): SMALL, (True, False): SMALL_UNITS, (False, True): SMALL_SPARES, (True, True): SMALL_SPARE_UNITS}
# the crates of ours that a flash of small sectors uses too, and the card over it
SMALL_BELOW, SMALL_BOARDS = "flash_area sector_moves", "sector_log sector_board"
SMALL_BOARD = {"use flash_board::FlashBoard;": "use sector_board::SectorBoard as FlashBoard;"}
SMALL_TEXTS = {
    "crates/device_flash/src/lib.rt": {"mod slots;": "mod slots;\nmod small;"},
    "crates/card_device/src/board.rt": SMALL_BOARD | {
        "use flash_log::{FlashFault, FlashLog};":
        "use sector_log::{SectorFault as FlashFault, SectorLog as FlashLog};",
        "FlashFault::NoLog => 7,": "FlashFault::NoLog => 7,\n        FlashFault::OutOfStep => 9,",
        "flash_board.specs.FlashFacts.{flash_facts}": "sector_board.specs.SectorFacts.{sector_facts as flash_facts}",
        "flash_board.specs.laws.Boards.{flash_is_board}":
        "sector_board.specs.laws.SectorBoards.{sector_is_board as flash_is_board}",
    },
    "crates/card_device/src/making.rt": SMALL_BOARD | {
        "use flash_log::FlashLog;\nuse flash_moves::format_flash;":
        "use sector_log::{SectorLog as FlashLog, format_sectors as format_flash};",
    },
    # (a flash of another log may have no slot for each step that is left)
    HEADER: {"CARD_TOO_LARGE = 8": "CARD_TOO_LARGE = 8,\n    CARD_OUT_OF_STEP = 9"},
    "crates/card_device/src/forgetting.rt": {
        "Powered, forget_on_flash};": "Powered, forget_on_sectors as forget_on_flash};",
    },
    "crates/card_device/src/renewing.rt": {
        "use card_turns::forget_on_flash;": "use card_turns::forget_on_sectors as forget_on_flash;",
    },
}
# old values of PINs leave journal and flash by themselves
FORGET_TEXTS = {"crates/card_device/src/forgetting.rt": {"FORGETS: bool = false;": "FORGETS: bool = true;"}}
# what is as in a port over a board, by its place
SHARED = {
    f"crates/device_flash/{it}": FILES / "crates/device_board" / it
    for it in ("src/port.rt.in", "specs/Told.antt.in", "c/README")
}
# the C of a board that has another name there, or isn't there
RENAMED = {"Makefile": "boards.mk"}
LEFT_OUT = ("device.c", "calls.c")


def code() -> dict[str, Path]:
    """The C of a port: each file's name there, and where it comes from. A flash's takes the place of a board's."""
    boards = {RENAMED.get(it.name, it.name): it for it in sorted(EXAMPLE.iterdir()) if it.name not in LEFT_OUT}
    flashes = {it.name: it for it in sorted(FLASH_EXAMPLE.iterdir())}
    return {name: path for name, path in (boards | flashes).items() if path.is_file()}


def files_of(folder: Path) -> dict[str, Path]:
    """The files below a folder, by their places there."""
    return {str(it.relative_to(folder)): it for it in sorted(folder.rglob("*")) if it.is_file()}


def take_texts(folder: Path, texts: dict[str, dict[str, str]]) -> None:
    """Gives a port the texts of a layer, or of small sectors."""
    for place, changes in texts.items():
        text = (folder / place).read_text(encoding="utf-8")
        for old, new in changes.items():
            assert text.count(old) == 1, old
            text = text.replace(old, new)
        (folder / place).write_text(text, encoding="utf-8")


def take_names(crate: Path, names: dict[str, dict[str, str]]) -> None:
    """Gives the crate of a flash the names of small sectors."""
    for place, changes in names.items():
        text = (crate / place).read_text(encoding="utf-8")
        for old, new in changes.items():
            assert old in text, old
            text = text.replace(old, new)
        (crate / place).write_text(text, encoding="utf-8")


def own_crates(layer: Layer | None, small: bool) -> dict[str, str]:
    """The crates of the flash, and the crates of ours that each uses."""
    own = layer.own() if layer else OWN_ON_FLASH
    if not small:
        return own
    return {FLASH: f"{own[FLASH]} {SMALL_BELOW}", CARD_LIBRARY: f"{own[CARD_LIBRARY]} {SMALL_BOARDS}"}


def own_files(layer: Layer | None) -> dict[str, Path]:
    """The files of the port's own crates and its README, by their places there."""
    own = files_of(FLASH_FILES)
    if not layer:
        return own
    crate = "crates/device_flash/"
    kept = {place: it for place, it in own.items() if not place.startswith(crate)}
    return kept | files_of(layer.files) | {f"{crate}src/image.rt.in": FLASH_FILES / crate / "src/image.rt.in"}


def fill(
    folder: Path, pages: int | None = None, slots: int | None = None, sector_words: int | None = None,
    unit: int | None = None, spares: int | None = None, small: bool = False, forgets: bool = False,
) -> None:
    """Puts the files of a port into an empty folder, with other sizes of the flash and its board if given, and with
    program units of so many words, so many spare sectors, or small sectors, if it has such. Its card forgets old values
    of PINs, or doesn't."""
    layer, smaller = LAYERS[bool(unit), bool(spares)], SMALLS[bool(unit), bool(spares)] if small else None
    copy_crates(folder, own_crates(layer, small))
    placed = {f"device/{name}": path for name, path in code().items()} | {it: TOP / it for it in LICENSES}
    own = own_files(layer) | (files_of(smaller.files) if smaller else {})
    for place, path in (placed | own | SHARED).items():
        target = folder / place.removesuffix(SUFFIX)
        target.parent.mkdir(parents=True, exist_ok=True)
        shutil.copyfile(path, target)
    if layer:
        take_texts(folder, layer.texts())
    if smaller:
        take_texts(folder, SMALL_TEXTS)
        take_names(folder / "crates" / FLASH, smaller.names)
    if forgets:
        take_texts(folder, FORGET_TEXTS)
    sizes = ((PAGES, pages), (SLOTS, slots), (SECTOR_WORDS, sector_words), (UNIT, unit), (SPARE_SECTORS, spares))
    for size, given in sizes:
        if given:
            set_size(folder, size, given)
