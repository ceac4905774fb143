"""The functions of a crate's sources: where each stands."""
from __future__ import annotations

import re
from dataclasses import dataclass
from functools import lru_cache
from pathlib import Path

HEAD = re.compile(r"^( *)(pub )?(?:pub\(\w+\) )?(?:final )?(const )?(?:extern \"C\" )?fn (\w+)")
BLOCK = re.compile(r"(?:pub )?(?:impl|trait)\b")
ROOTS = ("lib", "main")
PARAMETERS = re.compile(r"<[^<>]*>")
OWNER = re.compile(r"(?:pub )?(?:impl|trait) *(\w+)(?: for (\w+))?")


@dataclass(frozen=True)
class Function:
    """A function: its source, its name, and its first and last line. Its attributes are part of it."""

    path: str
    name: str
    # the type that it is a method of, with the trait's name behind, or nothing
    owner: str
    begin: int
    end: int
    # other functions and constants may be computed by its body
    is_const: bool
    # other crates may call it, and it has an `ensures` of its own
    is_promise: bool

    def has(self, path: str, line: int) -> bool:
        """True for a line of it, or of a file of its own proof."""
        if path.startswith("proofs/"):
            return self.is_proved_in(Path(path).parts[1:-1])
        return path == self.path and self.begin <= line <= self.end

    def is_proved_in(self, folders: tuple[str, ...]) -> bool:
        """True for the folders of its own proof. Those of a method begin with the module of its type, which may be in
        another source. The root's functions have no module. A plus stands before a recursive function."""
        names = tuple(it.removeprefix("+") for it in folders)
        if self.owner:
            return (self.owner, self.name) in zip(names, names[1:])
        module = Path(self.path).stem
        home = (self.name,) if module in ROOTS else (module, self.name)
        return names[: len(home)] == home


def functions_in(path: str, text: str) -> list[Function]:
    """The functions of a source. The layout of `rt fmt` says where each ends: at a brace in the column of its head."""
    found = []
    lines = text.split("\n")
    for at, line in enumerate(lines):
        head = HEAD.match(line)
        if not head:
            continue
        end = at
        if not (line.endswith("}") and line.count("{") == line.count("}")):
            end = next((it for it in range(at, len(lines)) if lines[it] == f"{head[1]}}}"), at)
        is_open = bool(head[2]) or implements_trait(lines, at)
        is_promise = is_open and has_ensures(lines[at : end + 1], head[1])
        owner = owner_of(lines, at)
        found.append(Function(path, head[4], owner, begin_of(lines, at), end + 1, bool(head[3]), is_promise))
    return found


def begin_of(lines: list[str], head: int) -> int:
    """The number of a function's first line, which may be an attribute. The prover names it for what is not proved."""
    while head > 0 and lines[head - 1].lstrip().startswith("#["):
        head -= 1
    return head + 1


def block_of(lines: list[str], at: int) -> str:
    """The head of the innermost block of methods before a line, or nothing."""
    if not lines[at].startswith(" "):
        return ""
    return next((it for it in reversed(lines[:at]) if BLOCK.match(it)), "")


def implements_trait(lines: list[str], at: int) -> bool:
    """True if the innermost block of methods before a line implements a trait."""
    return " for " in block_of(lines, at)


def owner_of(lines: list[str], at: int) -> str:
    """The type of the innermost block of methods before a line, with the trait's name behind, or nothing."""
    head = block_of(lines, at)
    while PARAMETERS.search(head):
        head = PARAMETERS.sub("", head)
    named = OWNER.match(head)
    return f"{named[2]}{named[1]}" if named and named[2] else named[1] if named else ""


def has_ensures(lines: list[str], indent: str) -> bool:
    """True if a function has an `ensures` before its body, which begins with a brace in the column of its head."""
    head = lines[: lines.index(f"{indent}{{")] if f"{indent}{{" in lines else []
    return any(it.lstrip().startswith("ensures") for it in head)


@lru_cache(maxsize=None)
def functions_of(folder: Path) -> tuple[Function, ...]:
    """The functions of a crate."""
    sources = sorted((folder / "src").rglob("*.rt"))
    found = [functions_in(str(it.relative_to(folder)), it.read_text(encoding="utf-8")) for it in sources]
    return tuple(one for each in found for one in each)
