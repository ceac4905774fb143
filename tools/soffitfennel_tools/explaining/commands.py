"""The bytes of a command, taken apart as far as they go (docs/CARD.md, From bytes to a command)."""

BINARY = ("00B0", "00D6")
RECORD = ("00B2", "00DC")
# the commands whose target is an EF: the current one, or the one of a short identifier
OF_RECORDS = (*RECORD, "00E2", "00A2")
OF_AN_EF = (*BINARY, *OF_RECORDS, "8032")
OF_PINS = ("0020", "0024", "0026", "0028", "002C")
LIFE_CYCLE = ("0044", "0004", "00E6", "00E8")


class Command:
    """A command: its header, data and Le, and what is wrong with its form."""

    def __init__(self, given: bytes):
        self.given = given
        self.p1, self.p2 = (given[2], given[3]) if len(given) >= 4 else (0, 0)
        self.key = given[:2].hex().upper()
        self.data = b""
        self.expected: int | None = None
        # the length byte Lc and how many bytes follow it, where the command has one
        self.lc: int | None = None
        self.rest = 0
        self.fault = "header" if len(given) < 4 else None
        self.read_body(given[4:])

    def read_body(self, body: bytes) -> None:
        """Takes the bytes behind the header apart."""
        if len(body) == 1:
            self.expected = body[0]
        elif body:
            self.lc, self.rest = body[0], len(body) - 1
            if not self.lc:
                self.fault = "extended"
            elif self.rest - self.lc not in (0, 1):
                self.fault = "mismatch"
            else:
                self.data = body[1 : 1 + self.lc]
                self.expected = body[-1] if self.rest > self.lc else None

    def short_identifier(self) -> int:
        """The short identifier by which it names its file, or 0."""
        if self.key in BINARY:
            return self.p1 & 0x1F if self.p1 & 0x80 else 0
        return self.p2 >> 3 if self.key in OF_RECORDS else 0

    def offset(self) -> int:
        """The offset of a binary command."""
        return self.p2 if self.p1 & 0x80 else self.p1 << 8 | self.p2
