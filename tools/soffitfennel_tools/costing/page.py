"""The numbers of docs/COST.md, compared with counts of this machine, if it has the versions that the page names."""
import re
import subprocess
from collections.abc import Iterator
from functools import cache
from pathlib import Path
from typing import NamedTuple

from .callgrind import cost
from .decoding import decoding
from .kinds import ONE_SUM, Kind
from .other_kinds import KINDS

TOP = Path(__file__).resolve().parents[3]
PAGE = TOP / "docs" / "COST.md"
ROW = re.compile(r"\| (.+) \| ([\d,]+) \| ([\d,]+) \| (\d+\.\d\d) \|")
# the kinds of line in the page's first table: all counted ones above 1.25, and some others
SHOWN = (
    "empty",
    "free",
    "`on`",
    "SELECT",
    "READ BINARY of 10 bytes",
    "READ BINARY of 256 bytes",
    "UPDATE BINARY of 10 bytes",
    "UPDATE BINARY of 255 bytes",
    "the same, refused: no file is current",
    "READ RECORD of 10 bytes",
    "VERIFY, the right value",
    "`on`, a card of 57 files",
    "SELECT of a file at level 8",
    "READ BINARY of 10 bytes at 32,000",
    "SEARCH RECORD, 254 records of 129 bytes",
    "CREATE FILE of 10 bytes, a card of 57 files",
    "CREATE FILE of 32,767 bytes",
    "`off`, without power",
    "a comment of 1,024 bytes",
    "a bad digit in byte 261",
    "I-block with SELECT",
    "a block of 300 bytes, refused",
    "an unknown instruction with 255 bytes (6D00)",
    "SELECT with a template, Le too small (6CXX)",
    "UPDATE BINARY of 64 bytes",
    "UPDATE BINARY of 128 bytes",
    "UPDATE BINARY of 255 bytes at 1",
    "UPDATE BINARY that a rule refuses (6982)",
    "UPDATE BINARY past the end (6A84)",
    "CREATE FILE without an entry (6A84)",
    "CREATE FILE of a file that exists (6A89), a card of 62 files",
    "UPDATE BINARY of 255 bytes, cut at write 15",
)
# what a count may differ by: the C library chooses its functions by the processor
MOST = 0.03
VERSIONS = {"rustc": ["rustc", "--version"], "glibc": ["ldd", "--version"], "valgrind": ["valgrind", "--version"]}
# the numbers in the sentences: what is measured, and the words around it
SENTENCES = {
    "power-on, 4,096 pages": r"`on` takes ([\d,]+) there",
    "power-on, names of one sum": r"with one sum\s+([\d,]+)",
    "power-on, other names": r"instructions, and ([\d,]+) otherwise",
    "a block": r"every block, (\d+) instructions",
    "a block of CREATE FILE": r"A block takes (\d+) instructions",
    "a block of CREATE FILE, plain": r"A block takes \d+ instructions, for (\d+)",
    "a byte in digits": r"a byte\s+in\s+(\d+) instructions",
    "a byte in digits, plain": r"instructions,\s+the\s+plain\s+core\s+in\s+(\d+)",
    "the lines of the plain core": r"without a contract: ([\d,]+) lines",
}


class Row(NamedTuple):
    """A row of the page's table."""

    bench: int
    plain: int
    ratio: str


def number(digits: str) -> int:
    """A number with commas."""
    return int(digits.replace(",", ""))


def rows(text: str) -> dict[str, Row]:
    """The rows of the page's table, by the name of the kind."""
    found = (ROW.fullmatch(line) for line in text.splitlines())
    return {it[1]: Row(number(it[2]), number(it[3]), it[4]) for it in found if it}


def other_version(text: str) -> str | None:
    """What of this machine is not as the page says; None where all is."""
    for name, words in VERSIONS.items():
        told = re.search(rf"{name} (\d+\.\d+)", text)
        try:
            ran = subprocess.run(words, capture_output=True, text=True)
        except OSError:
            return f"{name} isn't installed"
        here = re.search(r"(\d+\.\d+)(?!.*\d\.\d.*$)", ran.stdout.splitlines()[0]) if ran.stdout else None
        if not told or not here or told[1] != here[1]:
            return f"the page's {name} is {told[1] if told else 'not told'}, and {here[1] if here else 'none'} is here"
    return None


def is_near(page: int, here: int) -> bool:
    """Whether a number of the page stands for a count."""
    return abs(page - here) <= max(MOST * here, 1)


def row_fault(row: Row | None, bench: int, plain: int) -> str | None:
    """What is wrong with a row of the table, if anything."""
    if row is None:
        return f"no row, and {bench:,} and {plain:,} are counted"
    if not is_near(row.bench, bench) or not is_near(row.plain, plain):
        return f"{row.bench:,} and {row.plain:,} on the page, and {bench:,} and {plain:,} are counted"
    if row.ratio != f"{row.bench / row.plain:.2f}":
        return f"the ratio is {row.bench / row.plain:.2f}, and {row.ratio} on the page"
    return None


class Counted:
    """Counts for the numbers in sentences."""

    def __init__(self, program: str, plain_core: str):
        self.program, self.plain_core = program, plain_core

    @cache
    def power_on(self, pages: int) -> int:
        """A power-on of a card in a file."""
        return cost(self.program, kind("`on`"), pages).all

    def block(self, first: int, last: int) -> int:
        """What a block costs at power-on, from one number of pages to another."""
        return round((self.power_on(last) - self.power_on(first)) / (last - first))

    def created(self, program: str) -> int:
        """What a block costs in CREATE FILE."""
        few, many = (cost(program, kind(f"CREATE FILE of {size} bytes")).all for size in ("16,000", "32,767"))
        # (a block has 60 bytes)
        return round((many - few) / (-(-32_767 // 60) - -(-16_000 // 60)))

    def numbers(self) -> Iterator[tuple[str, int]]:
        """The numbers in the order of SENTENCES."""
        yield "power-on, 4,096 pages", self.power_on(4096)
        yield "power-on, names of one sum", cost(self.program, ONE_SUM).all
        yield "power-on, other names", cost(self.program, kind("`on`, 62 DFs with names of 16 bytes")).all
        yield "a block", self.block(1024, 2048)
        yield "a block of CREATE FILE", self.created(self.program)
        yield "a block of CREATE FILE, plain", self.created(self.plain_core)
        yield "a byte in digits", round(decoding(self.program))
        yield "a byte in digits, plain", round(decoding(self.plain_core))
        sources = sorted((TOP / "tools" / "plain_core").glob("*.rs"))
        yield "the lines of the plain core", sum(len(it.read_text(encoding="utf-8").splitlines()) for it in sources)


def kind(name: str) -> Kind:
    """The kind of line of this name."""
    return next(it for it in KINDS if it.name == name)


def sentence_faults(text: str, counted: Counted) -> Iterator[tuple[str, str | None]]:
    """Each number in a sentence of the page, and what is wrong with it, if anything."""
    for name, here in counted.numbers():
        told = re.search(SENTENCES[name], text)
        if not told:
            yield name, f"no sentence has it, and {here:,} are counted"
        else:
            is_right = is_near(number(told[1]), here)
            yield name, None if is_right else f"{told[1]} on the page, and {here:,} are counted"
