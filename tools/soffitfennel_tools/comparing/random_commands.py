"""Random commands with sense: of files that there are, with lengths that are right or nearly, by a seed."""
from __future__ import annotations

import random

from ..explaining.commands import Command
from ..explaining.files import CARRIED_OUT, Files
from ..explaining.templates import Template

from .sides import Side

PIN, WRONG, UNBLOCKING = "31323334FFFFFFFF", "30303030FFFFFFFF", "3132333435363738"
RULES = ("8C03030000", "8C0407000000", "8C0407001100", "8C03031100", "8C087F00000000000000", "8C0303FF00")
IDENTIFIERS = [*(f"6F{low:02X}" for low in range(1, 9)), *(f"7F{low:02X}" for low in range(0x10, 0x14))]
# how often each command comes, out of the sum
OFTEN = {
    "select": 20, "read_binary": 12, "update_binary": 10, "read_record": 12, "update_record": 8, "append_record": 6,
    "search_record": 5, "increase": 4, "create_file": 14, "delete_file": 3, "life_cycle": 4, "verify": 6, "odd": 5,
}  # fmt: skip
# for a card that may be lost
HARMFUL = {"wrong_pin": 5, "reset_tries": 3, "change_pin": 2, "requirement": 3, "terminate": 3}

# what has little sense where the current file is of a kind
BINARY = ("read_binary", "update_binary")
RECORDS = ("read_record", "update_record", "append_record", "search_record", "increase")
MISFITS = {"DF": (*RECORDS, *BINARY), "transparent": RECORDS, "linear": (*BINARY, "increase"), "cyclic": BINARY}


class Commands:
    """Commands one after another, each by what those before it made of the card."""

    def __init__(self, seed: int, is_harmful: bool):
        self.chance, self.files = random.Random(seed), Files()
        self.often = {**OFTEN, **(HARMFUL if is_harmful else {})}

    def script(self, count: int, bench: Side) -> list[str]:
        """So many lines behind a power-on; the bench plays them, so that files that exist are known."""
        lines = ["on"]
        bench.line("on")
        while len(lines) <= count:
            line = "on" if self.chance.random() < 0.02 else f"apdu {self.command()}"
            lines.append(line)
            self.follow(line, bench.line(line) or "")
        return lines

    def follow(self, line: str, answer: str) -> None:
        """Keeps what a line did."""
        if line == "on":
            self.files.power()
            return
        it = Command(bytes.fromhex(line[5:]))
        if answer[-4:] in CARRIED_OUT and not it.fault:
            self.files.carried_out(it)

    def command(self) -> str:
        """A command's digits; mostly one that the current file is of the kind for."""
        file = self.current()
        kind = file.kind if file else "DF"
        misfits = MISFITS[kind] if self.chance.random() < 0.8 else ()
        often = {name: weight for name, weight in self.often.items() if name not in misfits}
        made: str = getattr(self, self.chance.choices(list(often), list(often.values()))[0])()
        return made

    def bytes(self, count: int) -> str:
        """So many random bytes, of few values, so that a search finds some."""
        return "".join(self.chance.choice(("00", "01", "22", "FF")) for _ in range(count))

    def near(self, number: int) -> int:
        """A number that is mostly the one, else one beside it."""
        return max(0, min(255, number + self.chance.choice((0, 0, 0, 0, 1, -1))))

    def known(self) -> tuple[str, ...]:
        """The path of a file that there is."""
        return self.chance.choice([path for path in self.files.seen if path] or [()])

    def current(self) -> Template | None:
        """The current EF's template."""
        path = self.files.element
        return self.files.seen.get(path) if path is not None else None

    def with_data(self, header: str, data: str, le: str = "") -> str:
        """A command with data, or none; at most 255 bytes."""
        data = data[:510]
        return f"{header}{len(data) // 2:02X}{data}{le}" if data else f"{header}{le}"

    def select(self) -> str:
        """SELECT in each form, mostly of a file that there is."""
        path, p2 = self.known(), self.chance.choice(("0C", "0C", "04"))
        le = "00" if p2 == "04" and self.chance.random() < 0.8 else ""
        names = [file.objects[0x84].hex().upper() for file in self.files.seen.values() if 0x84 in file.objects]
        way = self.chance.randrange(10)
        if way < 4:
            near = self.files.children(self.files.directory)
            identifier = self.chance.choice([*(it[-1] for it in near), self.chance.choice(IDENTIFIERS), "3F00"])
            return self.with_data(f"00A400{p2}", identifier, le)
        if way < 7:
            return self.with_data(f"00A408{p2}", "".join(path) or "2FE2", le)
        if way == 7 and names:
            return self.with_data(f"00A404{p2}", self.chance.choice(names)[: self.chance.choice((4, 32))], le)
        return f"00A4{'03' if way == 8 else '00'}{p2}{le}"

    def place(self, size: int) -> str:
        """P1 and P2 of a binary command: an offset in the current EF, or a short identifier."""
        offset = self.chance.choice((0, 0, self.chance.randrange(size + 1), size, size - 1 if size else 0))
        if self.chance.random() < 0.25:
            return f"{0x80 | self.chance.choice((2, 1, 3, 4, 31)):02X}{min(offset, 255):02X}"
        return f"{offset:04X}"

    def read_binary(self) -> str:
        """READ BINARY."""
        current = self.current()
        size = current.size if current else 10
        return f"00B0{self.place(size)}{self.chance.choice((0, 1, self.near(min(size, 255)))):02X}"

    def update_binary(self) -> str:
        """UPDATE BINARY."""
        current = self.current()
        size = current.size if current else 10
        return self.with_data(f"00D6{self.place(size)}", self.bytes(self.chance.randrange(1, min(size, 40) + 2)))

    def record(self) -> tuple[str, int]:
        """P1 and P2 of a record command, and the length of a record."""
        file = self.current()
        most, length = (file.records, file.record_length) if file else (3, 4)
        mode = self.chance.choice((2, 3, 4, 4, 4))
        number = self.chance.randrange(min(most, 250) + 2) if mode == 4 else self.chance.choice((0, 0, 0, 1))
        short = self.chance.choice((1, 3, 31)) if self.chance.random() < 0.15 else 0
        return f"{number:02X}{short << 3 | mode:02X}", length or 4

    def read_record(self) -> str:
        """READ RECORD."""
        place, length = self.record()
        return f"00B2{place}{self.chance.choice((0, length, self.near(length))):02X}"

    def update_record(self) -> str:
        """UPDATE RECORD."""
        place, length = self.record()
        return self.with_data(f"00DC{place}", self.bytes(max(1, self.near(length))))

    def append_record(self) -> str:
        """APPEND RECORD."""
        return self.with_data("00E20000", self.bytes(max(1, self.near(self.record()[1]))))

    def search_record(self) -> str:
        """SEARCH RECORD."""
        place = f"{self.chance.randrange(3):02X}{self.chance.choice((4, 5)):02X}"
        text = self.bytes(self.chance.choice((1, 1, 2)))
        return self.with_data(f"00A2{place}", text, self.chance.choice(("00", "", "01")))

    def increase(self) -> str:
        """INCREASE."""
        number = self.bytes(max(1, self.near(self.record()[1])))
        return self.with_data("80320000", number, self.chance.choice(("00", "")))

    def create_file(self) -> str:
        """CREATE FILE of each kind, mostly good."""
        kind = self.chance.choice(("DF", "transparent", "linear", "cyclic"))
        length, records = self.chance.randrange(1, 9), self.chance.randrange(1, 5)
        size = self.chance.randrange(1, 200) if kind == "transparent" else length * records
        shape = {"DF": "82027821", "transparent": "82024121", "linear": f"82054221{length:04X}{records:02X}"}
        objects = [
            shape.get(kind, f"82054621{length:04X}{records:02X}"),
            f"8302{self.chance.choice(IDENTIFIERS)}",
            "" if kind == "DF" else self.chance.choice(("", "8800", f"8801{self.chance.randrange(1, 31) << 3:02X}")),
            "" if kind == "DF" else f"8002{size:04X}",
            self.chance.choice(("", "8A0105", "8A0101", "8A0104")),
            self.chance.choice(RULES),
        ]
        if self.chance.random() < 0.1:
            objects.pop(self.chance.randrange(len(objects)))
        data = "".join(objects)
        return self.with_data("00E00000", f"62{len(data) // 2:02X}{data}")

    def identifier_or_none(self) -> str:
        """The identifier of a file that is near, or none."""
        near = [path[-1] for path in self.files.children(self.files.directory)]
        return self.chance.choice([*near, ""])

    def delete_file(self) -> str:
        """DELETE FILE of a file that the script made."""
        mine = [it for it in self.files.children(self.files.directory) if it != ("2FE2",)]
        return self.with_data("00E40000", self.chance.choice(mine)[-1] if mine else "6FFF")

    def life_cycle(self) -> str:
        """ACTIVATE FILE and DEACTIVATE FILE."""
        return self.with_data(f"{self.chance.choice(('0044', '0004'))}0000", self.identifier_or_none())

    def verify(self) -> str:
        """VERIFY by the right value, and queries."""
        pin = self.chance.randrange(1, 4)
        return self.chance.choice((f"002000{pin:02X}08{PIN}", f"002000{pin:02X}", f"002C00{pin:02X}"))

    def odd(self) -> str:
        """A command whose header or length is wrong."""
        good = self.command()
        at = self.chance.randrange(4) * 2
        return self.chance.choice((good[:-2] or "00", good + "00", f"{good[:at]}{self.bytes(1)}{good[at + 2:]}"))[:522]

    def wrong_pin(self) -> str:
        """VERIFY by a wrong value."""
        return f"002000{self.chance.randrange(1, 4):02X}08{WRONG}"

    def reset_tries(self) -> str:
        """RESET RETRY COUNTER."""
        value = self.chance.choice((UNBLOCKING, UNBLOCKING, WRONG))
        return f"002C00{self.chance.randrange(1, 4):02X}10{value}{PIN}"

    def change_pin(self) -> str:
        """CHANGE REFERENCE DATA, which leaves the value as it is."""
        return f"002400{self.chance.randrange(1, 4):02X}10{PIN}{PIN}"

    def requirement(self) -> str:
        """DISABLE and ENABLE VERIFICATION REQUIREMENT."""
        return f"00{self.chance.choice(('26', '28'))}00{self.chance.randrange(1, 4):02X}08{PIN}"

    def terminate(self) -> str:
        """TERMINATE DF and TERMINATE EF."""
        return self.with_data(f"{self.chance.choice(('00E6', '00E8'))}0000", self.identifier_or_none())
