"""The kinds of script line that are counted, each with the lines that come before it, and the curves that they make."""
from typing import Callable, NamedTuple


class Kind(NamedTuple):
    """A kind of line: its name, as docs/COST.md has it, the lines before it, and the line, or lines that come in turn.
    Two scripts count it: one has none of it, the other many."""

    name: str
    head: list[str]
    line: str
    many: int = 200

    def script(self, count: int) -> str:
        """A script of `count` lines of the kind, or turns of its lines."""
        return "".join(line + "\n" for line in [*self.head, *[self.line] * count])

    @property
    def more(self) -> int:
        """How many lines one script has more than the other."""
        return self.many * (self.line.count("\n") + 1)


class Curve(NamedTuple):
    """How the cost of a command grows: the command, what grows, and the kinds that measure it."""

    command: str
    growing: str
    points: list[tuple[int, Kind]]


def once(name: str, head: list[str], line: str) -> Kind:
    """A kind of line that can't be repeated: the script without it is compared with the script with it."""
    return Kind(name, head, line, 1)


def apdu(header: str, data: str = "", expected: str = "") -> str:
    """The line that sends a command."""
    return f"apdu {header}{f'{len(data) // 2:02X}{data}' if data else ''}{expected}"


def create(*objects: str) -> str:
    """The line that creates a file of a template."""
    template = "".join(objects)
    return apdu("00E00000", f"62{len(template) // 2:02X}{template}")


def make_bytes(identifier: str, size: int, short: int = 0) -> str:
    """The line that creates a transparent file, which all may read, update and delete."""
    given = f"8801{8 * short:02X}" if short else "8800"
    return create("82024121", f"8302{identifier}", given, f"8002{size:04X}", "8A0105", "8C0443000000")


def make_records(identifier: str, length: int, count: int, kind: str = "42") -> str:
    """The line that creates a file of records, all of which exist: linear, or cyclic by kind 46."""
    size = f"8002{length * count:04X}"
    return create(f"8204{kind}21{length:04X}", f"8302{identifier}", "8800", size, "8A0105", "8C03030000")


def make_directory(identifier: str, name: str = "") -> str:
    """The line that creates a DF, in which all may create, and which all may delete."""
    named = f"84{len(name) // 2:02X}{name}" if name else ""
    return create("82027821", f"8302{identifier}", named, "8A0105", "8C0446000000")


def make_many(count: int, shorts: int = 0) -> list[str]:
    """The lines that create files of ten bytes in the current DF, the first ones with short identifiers."""
    return [make_bytes(f"{0x6F01 + number:04X}", 10, number + 3 if number < shorts else 0) for number in range(count)]


def make_named(count: int, step: int = 0) -> list[str]:
    """The lines that create DFs below the MF, whose names of 16 bytes differ at the end. With step 31 all names have
    one sum, by which the check at power-on finds those that it has to compare."""
    ends = [(it, -step * it % 256) if step else (0, it) for it in range(count)]
    names = ["A0000000871002FF49FF05890000" + bytes(it).hex().upper() for it in ends]
    made = [make_directory(f"{0x7F01 + it:04X}", name) for it, name in enumerate(names)]
    return [line for it in made for line in (it, select("3F00"))]


def make_numbered(count: int) -> list[str]:
    """The lines that create files with short identifiers: up to 29 in each of as many DFs as it takes."""
    lines = []
    for it in range(count):
        if it % 29 == 0:
            lines += [select("3F00"), make_directory(f"{0x7F01 + it // 29:04X}")]
        lines.append(make_bytes(f"{0x6F01 + it:04X}", 10, it % 29 + 1))
    return lines


def select(identifier: str) -> str:
    """The line that selects a file by its identifier."""
    return apdu("00A4000C", identifier)


def delete(identifier: str) -> str:
    """The line that deletes a file."""
    return apdu("00E40000", identifier)


def read(offset: int, expected: str) -> str:
    """The line that reads bytes of the current file."""
    return apdu(f"00B0{offset:04X}", "", expected)


def update(count: int, offset: int = 0) -> str:
    """The line that updates bytes of the current file."""
    return apdu(f"00D6{offset:04X}", "A5" * count)


def card_of(files: int, *last: str, shorts: int = 0) -> list[str]:
    """The lines that make a card of so many files, with the MF and the factory's file; its last files are given."""
    return ["on", *make_many(files - 2 - len(last), shorts), *last]


FACTORY, OTHER, NAME = "2FE2", "6FE0", "A000000087"
READ, READ_ALL = read(0, "0A"), read(0, "00")
SHORT_FILE, BY_SHORT = make_bytes(OTHER, 10, 9), read(0x8900, "0A")
BY_NAME = apdu("00A4040C", NAME)
SEARCH = apdu("00A20104", "0001", "00")
VERIFY = apdu("00200001", "31323334FFFFFFFF")
CHANGE = apdu("00240001", "31323334FFFFFFFF" * 2)
# the MF and the factory's file are two of the 64 files of a card
CARD_OF_57 = card_of(57)
DF_OF_62 = card_of(63)
LAST = f"{0x6F00 + 61:04X}"
RECORDS = ["on", make_records("6F01", 10, 10)]
EMPTY_RECORDS = ["on", create("82054221000A00", "83026F01", "8800", "80020064", "8A0105", "8C0407000000")]
ACTIVATABLE = create("82024121", "83026F01", "8800", "8002000A", "8C021000")
RING = ["on", make_records("6F01", 10, 10, "46")]
COUNTERS = ["on", make_records("6F01", 4, 10, "46"), apdu("00DC0003", "00000000")]
APPEND = apdu("00E20000", "A5" * 10)
# the longest file: 254 records of 129 bytes
LONG_LENGTH = 129
LONG_FILE = ["on", make_bytes("6F01", 32_767)]
OFFSETS, FILES = (0, 16_000, 32_000), (3, 20, 62)


def level(depth: int) -> list[str]:
    """The lines that make a file at a level, and select it."""
    return ["on", *[make_directory(f"7F{number:02d}") for number in range(2, depth)], make_bytes("6F01", 10)]


def records(count: int) -> list[str]:
    """The lines that make a file of long records, and select it."""
    return ["on", make_records("6F01", LONG_LENGTH, count)]


def removing(files: int) -> Kind:
    """DELETE FILE on a card of so many files. The pair before it does all for the first time."""
    made = make_bytes(OTHER, 10)
    head = [*card_of(files - 1), make_bytes(OTHER, 10), delete(OTHER), made]
    return once(f"DELETE FILE of 10 bytes, a card of {files} files", head, delete(OTHER))


def creating(files: int) -> Kind:
    """CREATE FILE on a card of so many files, the new one not among them."""
    made = make_bytes(OTHER, 10)
    return once(f"CREATE FILE of 10 bytes, a card of {files} files", [*card_of(files), made, delete(OTHER)], made)


def sized(size: int) -> Kind:
    """CREATE FILE of a size."""
    made = make_bytes(OTHER, size)
    return once(f"CREATE FILE of {size:,} bytes", ["on", make_bytes(OTHER, 10), delete(OTHER)], made)


def removing_directory(files: int) -> Kind:
    """DELETE FILE of a DF with files."""
    pair = [make_directory("7F10"), delete("7F10")]
    head = ["on", *pair, make_directory("7F10"), *make_many(files), select("3F00")]
    return once(f"DELETE FILE of a DF with {files} files", head, delete("7F10"))


def curve(command: str, growing: str, places: tuple[int, ...], make: Callable[[int], Kind]) -> Curve:
    """The curve of the kinds that are made for some numbers."""
    return Curve(command, growing, [(place, make(place)) for place in places])


def power_on(name: str, head: list[str]) -> Kind:
    """A power-on of a card."""
    return Kind(f"`on`, {name}", head, "on", 30)


CURVES = [
    curve("on", "files", (3, 20, 57), lambda n: power_on(f"a card of {n} files", card_of(n))),
    curve(
        "on",
        "short identifiers",
        (0, 5, 15, 28),
        lambda n: power_on(f"{n} of 30 files with a short identifier", card_of(30, shorts=n)),
    ),
    curve(
        "SELECT by identifier",
        "files",
        FILES,
        lambda n: Kind(f"SELECT of the last of {n} files", card_of(n, make_bytes("6FFF", 10)), select("6FFF")),
    ),
    curve(
        "SELECT by identifier",
        "level",
        (2, 5, 8),
        lambda n: Kind(f"SELECT of a file at level {n}", level(n), select("6F01")),
    ),
    curve(
        "SELECT by name",
        "files",
        FILES,
        lambda n: Kind(f"SELECT by name, a card of {n} files", card_of(n, make_directory("7F10", NAME)), BY_NAME),
    ),
    curve(
        "READ BINARY by short identifier",
        "files",
        FILES,
        lambda n: Kind(f"READ BINARY by short identifier, the last of {n} files", card_of(n, SHORT_FILE), BY_SHORT),
    ),
    curve(
        "READ BINARY",
        "offset",
        OFFSETS,
        lambda n: Kind(f"READ BINARY of 10 bytes at {n:,}", LONG_FILE, read(n, "0A")),
    ),
    curve(
        "UPDATE BINARY",
        "offset",
        OFFSETS,
        lambda n: Kind(f"UPDATE BINARY of 10 bytes at {n:,}", LONG_FILE, update(10, n)),
    ),
    curve(
        "READ RECORD",
        "number",
        (1, 100, 254),
        lambda n: Kind(f"READ RECORD {n} of 129 bytes", records(254), apdu(f"00B2{n:02X}04", "", "00")),
    ),
    curve(
        "UPDATE RECORD",
        "number",
        (1, 100, 254),
        lambda n: Kind(f"UPDATE RECORD {n} of 129 bytes", records(254), apdu(f"00DC{n:02X}04", "A5" * LONG_LENGTH)),
    ),
    curve(
        "SEARCH RECORD",
        "records",
        (2, 100, 254),
        lambda n: Kind(f"SEARCH RECORD, {n} records of 129 bytes", records(n), SEARCH, 10),
    ),
    curve("CREATE FILE", "files", (3, 20, 57), creating),
    curve("CREATE FILE", "bytes", (60, 16_000, 32_767), sized),
    curve("DELETE FILE", "files", FILES, removing),
    curve("DELETE FILE of a DF", "files in it", (2, 20, 60), removing_directory),
]

SINGLE = [
    Kind("empty", ["on"], ""),
    Kind("a comment of 44 bytes", ["on"], "# a comment of forty-four bytes, and a space"),
    Kind("free", ["on"], "free"),
    Kind("`on`", ["on"], "on", 30),
    power_on("62 DFs with names of 16 bytes", ["on", *make_named(62)]),
    power_on("59 EFs with a short identifier", ["on", *make_numbered(59)]),
    Kind("a block that is refused", ["on"], "block 00000500B000000AB5"),
    Kind("SELECT", ["on"], select(FACTORY)),
    Kind("SELECT of the first of 62 files of a DF", DF_OF_62, select(FACTORY)),
    Kind("SELECT with a template", ["on"], apdu("00A40004", FACTORY, "00")),
    Kind("SELECT by a path", level(4), apdu("00A4080C", "7F027F036F01")),
    Kind("READ BINARY of 10 bytes", ["on", select(FACTORY)], READ),
    Kind("READ BINARY of 256 bytes", ["on", make_bytes("6F01", 256)], READ_ALL),
    Kind("READ BINARY of 10 bytes, the last of 62 files", [*DF_OF_62, select(LAST)], READ),
    Kind("READ BINARY of 10 bytes, a file at level 8", level(8), READ),
    Kind("UPDATE BINARY of 10 bytes", ["on", make_bytes("6F01", 10)], update(10)),
    Kind("UPDATE BINARY of 255 bytes", ["on", make_bytes("6F01", 256)], update(255)),
    Kind("the same, refused: no file is current", ["on"], update(255)),
    Kind("READ RECORD of 10 bytes", RECORDS, apdu("00B20504", "", "0A")),
    Kind("UPDATE RECORD of 10 bytes", RECORDS, apdu("00DC0504", "A5" * 10)),
    Kind("UPDATE RECORD of 10 bytes, a cyclic file", RING, apdu("00DC0003", "A5" * 10)),
    once("APPEND RECORD of 10 bytes", [*EMPTY_RECORDS, APPEND], APPEND),
    Kind("INCREASE", COUNTERS, apdu("80320000", "00000001", "00")),
    Kind("VERIFY, the right value", ["on"], VERIFY),
    Kind("CHANGE REFERENCE DATA", ["on"], CHANGE),
    Kind("RESET RETRY COUNTER", ["on"], apdu("002C0001", "313233343536373831323334FFFFFFFF")),
    Kind("ACTIVATE FILE, no change", ["on", ACTIVATABLE], apdu("00440000")),
]

# commands whose device writes alone stand in docs/COST.md
CHANGEABLE = create("82024121", "83026F01", "8800", "8002000A", "8A0105", "8C063B0000000000")
DEACTIVATE = apdu("00040000")
WRITING = [
    once("VERIFY, a wrong value", ["on"], apdu("00200001", "30303030FFFFFFFF")),
    once("DISABLE VERIFICATION REQUIREMENT", ["on"], apdu("00260001", "31323334FFFFFFFF")),
    once("DEACTIVATE FILE", ["on", CHANGEABLE], DEACTIVATE),
    once("TERMINATE EF", ["on", CHANGEABLE], apdu("00E80000")),
]

# kinds whose counts stand in sentences of docs/COST.md alone
ONE_SUM = power_on("62 DFs whose names have one sum", ["on", *make_named(62, 31)])

# what the table of docs/COST.md shows: of each curve the last kind, as the picture has the others
TABLE = [*SINGLE, *[curve.points[-1][1] for curve in CURVES]]
