"""Citations of standards in comments: which clauses, and for which definitions or items."""
from __future__ import annotations

import re
from dataclasses import dataclass
from functools import lru_cache
from pathlib import Path

from .contracts import reading

STANDARD = re.compile(r"(?:ISO/IEC |ETSI TS |TS |and )(7816-[349]|102 22[12])")
NUMBER = r"(?:clause )?(?!7816)(\d+(?:\.\d+)*)(?![\d.]*\d)"
# what may follow a standard: clauses with commas, "and" and "to" between, or a command's name
CLAUSES = re.compile(rf"(?:, third edition)?((?:(?:, | and | to ){NUMBER})+)")
COMMAND = re.compile(r", ([A-Z][A-Z ]+[A-Z])")
# a clause alone in brackets is of the standard that was named last
ALONE = re.compile(r"\((\d+(?:\.\d+)+)\)")
COMMENT = re.compile(r"\s*(///|//!|//|--|#(?!\[|!/))\s?(.*)")
ITEM = re.compile(
    r"\s*(?:pub )?(?:const )?(?:fn|struct|enum|const|trait|type|impl(?:<[^>]*>)?(?: \w+ for)?) ([A-Za-z_]\w*)"
)


@dataclass(frozen=True, order=True)
class Clause:
    """A clause of a standard: its number, or a command's name, or nothing for the whole standard."""

    standard: str
    number: str

    @property
    def order(self) -> tuple[str, list[int], str]:
        """Its place in a list."""
        is_number = self.number[:1].isdigit()
        return self.standard, [int(part) for part in self.number.split(".")] if is_number else [], self.number

    def __str__(self) -> str:
        return f"{self.standard} {self.number}".rstrip()

    def is_in(self, other: Clause) -> bool:
        """Whether it is the other clause, or a part of it."""
        if self.standard != other.standard:
            return False
        return not other.number or self.number == other.number or self.number.startswith(f"{other.number}.")


def clauses_of(text: str) -> set[Clause]:
    """The clauses that a text cites."""
    found: set[Clause] = set()
    standard = None
    for match in re.finditer(rf"{STANDARD.pattern}|{ALONE.pattern}", text):
        if match[1] is None:
            if standard:
                found.add(Clause(standard, match[2]))
            continue
        standard = match[1]
        rest = text[match.end() :]
        numbers, command = CLAUSES.match(rest), COMMAND.match(rest)
        if numbers:
            found |= {Clause(standard, number) for number in re.findall(NUMBER, numbers[1])}
        else:
            found.add(Clause(standard, command[1] if command else ""))
    return found


@dataclass(frozen=True)
class Block:
    """A comment, and the lines that it is about: the definition below it, or all up to the next such comment."""

    text: str
    begin: int
    end: int
    is_head: bool


def blocks_of(lines: list[str]) -> list[Block]:
    """The comments of a file, in their order."""
    found, at = [], 0
    while at < len(lines):
        begun = at
        while at < len(lines) and COMMENT.match(lines[at]):
            at += 1
        if at > begun:
            comments = filter(None, map(COMMENT.match, lines[begun:at]))
            text = " ".join(it[2].strip() for it in comments)
            found.append(Block(text, begun, at, begun == 0 or lines[begun].lstrip().startswith("//!")))
        else:
            at += 1
    return found


@lru_cache(maxsize=None)
def lines_of(path: Path) -> list[str]:
    """The lines of a file."""
    return path.read_text(encoding="utf-8").split("\n")


@lru_cache(maxsize=None)
def cited_in(path: Path) -> list[tuple[Block, frozenset[Clause]]]:
    """The comments of a file that cite a clause."""
    return [(block, frozenset(found)) for block in blocks_of(lines_of(path)) if (found := clauses_of(block.text))]


def reach(path: Path, block: Block) -> tuple[int, int]:
    """The lines that a comment is about: the file, the definition below it, or the part that it begins."""
    lines = lines_of(path)
    if block.is_head:
        return 0, len(lines)
    if block.end < len(lines) and lines[block.end].strip():
        end = next((at for at in range(block.end, len(lines)) if not lines[at].strip()), len(lines))
        return block.begin, end
    parts = [it.begin for it in blocks_of(lines) if it.begin > block.begin and not lines[it.end : it.end + 1] != [""]]
    return block.begin, parts[0] if parts else len(lines)


def words_below(path: Path, block: Block) -> list[str]:
    """The names of the definitions or items that a comment is about."""
    begin, end = reach(path, block)
    name = reading().WORD if path.suffix == ".antt" else ITEM
    found = [match[1] for line in lines_of(path)[begin:end] if (match := name.match(line))]
    # of an item in a source, the first name below: what follows is its inside
    return found[:1] if path.suffix == ".rt" and not block.is_head else found
