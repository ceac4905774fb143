"""The kinds of script line that the table of docs/COST.md leaves out: faults, refusals, sizes, blocks, cut commands."""
from __future__ import annotations

from collections.abc import Iterable
from functools import reduce
from operator import xor

from .kinds import (
    APPEND,
    BY_NAME,
    CURVES,
    FACTORY,
    LONG_FILE,
    NAME,
    OTHER,
    RECORDS,
    RING,
    SEARCH,
    SINGLE,
    TABLE,
    VERIFY,
    Kind,
    apdu,
    card_of,
    create,
    delete,
    level,
    make_bytes,
    make_directory,
    make_many,
    make_records,
    once,
    power_on,
    read,
    records,
    select,
    update,
)


def block(control: int, data: str = "") -> str:
    """The line that sends a block of T=1: its control byte, and its information field."""
    content = bytes.fromhex(f"00{control:02X}{len(data) // 2:02X}{data}")
    return f"block {content.hex().upper()}{reduce(xor, content):02X}"


def in_turn(name: str, head: list[str], lines: Iterable[str]) -> Kind:
    """Lines that come in turn. Their mean is counted."""
    return Kind(name, head, "\n".join(lines), 100)


def rarely(name: str, head: list[str], line: str) -> Kind:
    """A kind of line that takes long, or comes behind lines that do."""
    return Kind(name, head, line, 20)


def blocks(command: str) -> list[str]:
    """The I-blocks with a command, of both numbers."""
    return [block(0, command), block(0x40, command)]


def levels(files: int) -> list[str]:
    """The lines that make DFs down to level 7, with so many files in each."""
    lines = ["on"]
    for it in range(6):
        lines.append(make_directory(f"7F{it + 2:02d}"))
        lines += [make_bytes(f"{0x6F01 + files * it + number:04X}", 10) for number in range(files)]
    return lines


def cut_before(head: list[str], writes: int, line: str) -> list[str]:
    """The lines that end with a command that loses power at a device write."""
    return [*head, f"cut {writes} 0000", line]


def directories(ends: Iterable[int]) -> list[str]:
    """The lines that create DFs below the MF, by the last byte of their names."""
    made = [make_directory(f"{0x7F10 + it:04X}", f"{NAME}{it:02X}") for it in ends]
    return [line for it in made for line in (it, select("3F00"))]


TEN, MORE = ["on", make_bytes("6F01", 10)], ["on", make_bytes("6F01", 256)]
BYTES = ["on", create("820442210001", "83026F01", "8800", "800200FE", "8A0105", "8C03030000")]
CHANGEABLE = ["on", create("82024121", "83026F01", "8800", "8002000A", "8C03180000")]
FULL_RING = ["on", create("82054621000A0A", "83026F01", "8800", "80020064", "8A0105", "8C0407000000")]
# all blocks but three
NEARLY_FULL = ["on", make_bytes("6E01", 32_767), select("3F00"), make_bytes("6E02", 60 * 346), select("3F00")]
MADE = make_bytes(OTHER, 10)
PATH = "".join(f"7F{it:02d}" for it in range(2, 8))
WRONG = apdu("00200001", "30303030FFFFFFFF")
VALUE = "31323334FFFFFFFF"
FULL_DF = ["on", make_directory("7F10"), *make_many(60), select("3F00")]
UPDATED = [*MORE, "on", select("6F01")]

LINES = [
    Kind("`off`, without power", [], "off"),
    in_turn("`on` and `off` in turn", [], ["on", "off"]),
    Kind("`free`, without power", [], "free"),
    Kind("SELECT, without power", [], select(FACTORY)),
    Kind("`cut`", ["on"], "cut 999999 FFFF"),
    Kind("`lose`", ["on"], "lose 999999"),
    Kind("a comment of 1,024 bytes", ["on"], "#" + "x" * 1023),
    Kind("a carriage return alone", ["on"], "\r"),
    once("a line that is no line of a script", ["on"], "xyzzy"),
    once("a line of 1,025 bytes", ["on"], "x" * 1025),
    once("a bad digit in byte 261", ["on"], "apdu " + "00" * 260 + "0g"),
]

BLOCKS = [
    in_turn("I-block with SELECT", ["on"], blocks("00A4000C022FE2")),
    in_turn("I-block with READ BINARY of 10 bytes", ["on", *blocks("00A4000C022FE2")], blocks("00B000000A")),
    Kind("R-block, a block is sent again", ["on", block(0, "00A4000C022FE2")], block(0x80)),
    Kind("S(RESYNCH request)", ["on"], block(0xC0)),
    Kind("S(IFS request)", ["on"], block(0xC1, "FE")),
    Kind("a block of 300 bytes, refused", ["on"], "block " + "00" * 300),
    in_turn("SELECT, and its block is lost", ["on"], ["lose 1", select(FACTORY)]),
    in_turn("SELECT, and the answer's block is lost", ["on"], ["lose 2", select(FACTORY)]),
    in_turn("SELECT, and its block is garbled", ["on"], ["garble 1", select(FACTORY)]),
]

REFUSALS = [
    Kind("a command of 3 bytes (6700)", ["on"], "apdu 00A400"),
    Kind("an unknown class (6E00)", ["on"], "apdu FFA40000"),
    Kind("an unknown instruction (6D00)", ["on"], "apdu 00010000"),
    Kind("wrong P1 and P2 (6A86)", ["on"], "apdu 00A4FFFF022FE2"),
    Kind("an unknown instruction with 255 bytes (6D00)", ["on"], "apdu 00010000FF" + "A5" * 255),
]

SELECTS = [
    Kind("SELECT of the MF, without data", ["on"], "apdu 00A4000C"),
    in_turn("SELECT of the parent, and of the DF", level(8)[:-1], [apdu("00A4030C"), select("7F07")]),
    Kind("SELECT of no file (6A82), a card of 62 files", card_of(62), select("6FFE")),
    Kind("SELECT by no DF's name (6A82), a card of 62 files", card_of(62), BY_NAME),
    Kind("SELECT by the 30th of 30 similar names", ["on", *directories(range(30))], apdu("00A4040C", NAME + "1D")),
    Kind("SELECT by a path of 7 identifiers", level(8), apdu("00A4080C", PATH + "6F01")),
    Kind("SELECT by a path whose 7th identifier is wrong", level(8), apdu("00A4080C", PATH + "6FFE")),
    Kind("SELECT with a template, Le too small (6CXX)", ["on"], apdu("00A40004", FACTORY, "01")),
    Kind(
        "SELECT of a DF with name and template",
        ["on", make_directory("7F10", "A0" * 16), select("3F00")],
        apdu("00A40004", "7F10", "00"),
    ),
]

READS = [
    Kind("READ BINARY of 1 byte", TEN, read(0, "01")),
    Kind("READ BINARY of more than there is (6282)", TEN, read(0, "20")),
    Kind("READ BINARY past the end (6B00)", TEN, read(10, "01")),
    *[Kind(f"READ BINARY of {it} bytes", MORE, read(0, f"{it:02X}")) for it in (32, 33, 64, 128)],
    Kind("READ BINARY of 256 bytes at 32,511", LONG_FILE, read(32_511, "00")),
    Kind("READ BINARY of 10 bytes at 3", MORE, read(3, "0A")),
]

UPDATES = [
    *[Kind(f"UPDATE BINARY of {it} byte{'s' * (it > 1)}", TEN, update(it)) for it in (1, 4)],
    *[Kind(f"UPDATE BINARY of {it} bytes", MORE, update(it)) for it in (16, 32, 64, 128)],
    in_turn("UPDATE BINARY of 10 bytes that change", TEN, [update(10), apdu("00D60000", "5A" * 10)]),
    Kind("UPDATE BINARY of 1 byte at 32,766", LONG_FILE, update(1, 32_766)),
    Kind("UPDATE BINARY of 255 bytes at 32,512", LONG_FILE, update(255, 32_512)),
    Kind("UPDATE BINARY of 255 bytes at 1", MORE, update(255, 1)),
    Kind("UPDATE BINARY that a rule refuses (6982)", ["on", select(FACTORY)], update(10)),
    Kind("UPDATE BINARY past the end (6A84)", TEN, update(11)),
]

OF_RECORDS = [
    Kind("READ RECORD 254 of 1 byte", BYTES, apdu("00B2FE04", "", "00")),
    Kind("UPDATE RECORD 254 of 1 byte", BYTES, apdu("00DCFE04", "A5")),
    Kind("READ RECORD, wrong Le (6CXX)", RECORDS, apdu("00B20504", "", "09")),
    Kind("READ RECORD of no record (6A83)", RECORDS, apdu("00B20B04", "", "0A")),
    Kind("READ RECORD, the next of a cyclic file", RING, apdu("00B20002", "", "00")),
    Kind("APPEND RECORD to a full cyclic file", FULL_RING, APPEND),
    rarely("SEARCH RECORD, none of 254 of 1 byte", BYTES, SEARCH),
    rarely("SEARCH RECORD, all of 254 of 1 byte", BYTES, apdu("00A20104", "FF", "00")),
    Kind("SEARCH RECORD, the first byte everywhere", records(254), apdu("00A20104", "FF00", "00"), 2),
    Kind("SEARCH RECORD backward, 254 of 129 bytes", records(254), apdu("00A2FE05", "0001", "00"), 2),
    Kind("INCREASE past the maximum (9850)", ["on", make_records("6F01", 4, 10, "46")], apdu("80320000", "01", "00")),
]

PINS = [
    Kind("VERIFY that asks for the tries", ["on"], "apdu 00200001"),
    in_turn("VERIFY of a wrong and of the right value", ["on"], [WRONG, VERIFY]),
    Kind("VERIFY without tries (6983)", ["on", WRONG, WRONG, WRONG], VERIFY),
    in_turn("DISABLE and ENABLE of a PIN", ["on"], [apdu("00260001", VALUE), apdu("00280001", VALUE)]),
    in_turn("DEACTIVATE and ACTIVATE FILE", CHANGEABLE, ["apdu 00040000", "apdu 00440000"]),
]

CREATIONS = [
    once("CREATE FILE of a DF", ["on", make_directory("7F10"), delete("7F10")], make_directory("7F10")),
    once(
        "CREATE FILE of 10 records of 10 bytes",
        ["on", make_records("6F01", 10, 10), select("3F00")],
        make_records("6F02", 10, 10),
    ),
    once("CREATE FILE with the last entry", [*card_of(62), MADE, delete(OTHER)], MADE),
    once("CREATE FILE with the last blocks", [*NEARLY_FULL, MADE, delete(OTHER)], MADE),
    rarely("CREATE FILE without an entry (6A84)", card_of(64), MADE),
    rarely("CREATE FILE without enough blocks (6A84)", NEARLY_FULL, make_bytes(OTHER, 240)),
    rarely("CREATE FILE of a file that exists (6A89), a card of 62 files", card_of(62), make_bytes("6F01", 10)),
    rarely("CREATE FILE by a bad template (6A80)", ["on"], create("82024121", "83026F01")),
    once("CREATE FILE at level 8, a card of 56 files", [*levels(8), MADE, delete(OTHER)], MADE),
    once("DELETE FILE of a tree of 6 levels, 54 files", [*levels(8), select("3F00")], delete("7F02")),
    once(
        "DELETE FILE of 32,767 bytes",
        ["on", make_bytes("6F02", 10), delete("6F02"), make_bytes("6F01", 32_767)],
        delete("6F01"),
    ),
]

CUTS = [
    once("`on` behind a cut of DELETE FILE of 60 files", cut_before(FULL_DF, 130, delete("7F10")), "on"),
    once("`on` behind a cut of UPDATE BINARY of 255 bytes", cut_before(UPDATED, 29, update(255)), "on"),
    once("`on` behind a cut of UPDATE BINARY of 10 bytes", cut_before(UPDATED, 4, update(10)), "on"),
    once("UPDATE BINARY of 255 bytes, cut at write 15", [*MORE, update(255), "cut 15 5555"], update(255)),
    power_on("a file of 32,767 bytes", LONG_FILE),
    power_on("6 levels of DFs, each with 8 files", levels(8)),
]

OTHERS = [
    *LINES,
    *BLOCKS,
    *REFUSALS,
    *SELECTS,
    *READS,
    *UPDATES,
    *OF_RECORDS,
    *PINS,
    *CREATIONS,
    *CUTS,
]

KINDS = [*SINGLE, *[kind for curve in CURVES for _, kind in curve.points], *OTHERS]
# what is stored, and compared with the plain core
COUNTED = [*TABLE, *OTHERS]
