"""The evidence for a clause: definitions, sources, contracts that rest on them, scripts, tests and mutants."""
from __future__ import annotations

import re
from collections import defaultdict
from dataclasses import dataclass, field
from functools import lru_cache
from pathlib import Path
from typing import TypeVar

from .citations import Clause, cited_in, lines_of, words_below
from .contracts import TOP, reading

T = TypeVar("T")

CRATES = TOP / "crates"
MODEL = CRATES / "card_model" / "specs"
# crates whose public calls a person who builds on the card makes; those of others are named where none of these is
OUTER = ("t1_link", "card_start", "card_core", "bench_turns", "card_turns", "card_sweeps", "card_bench")
FUNCTION = re.compile(r"\s*(pub )?(final )?(const )?fn ")
TYPE = re.compile(r"^(?:pub )?(?:struct|enum) (\w+)", re.M)

# a definition by its file, and a type of a source by its crate
Word = tuple[Path, str]
Type = tuple[str, str]


@dataclass
class Evidence:
    """The evidence for one clause."""

    definitions: set[Word] = field(default_factory=set)
    sources: set[str] = field(default_factory=set)
    promises: dict[str, list[str]] = field(default_factory=dict)
    scripts: set[str] = field(default_factory=set)
    tests: set[str] = field(default_factory=set)
    mutants: set[str] = field(default_factory=set)

    @property
    def has_theorem(self) -> bool:
        """Whether a contract's clause rests on a definition of it."""
        return bool(self.promises)

    @property
    def is_shown(self) -> bool:
        """Whether a script or a test shows it."""
        return bool(self.scripts or self.tests)


def relative(path: Path) -> str:
    """A path as the repository has it."""
    return str(path.relative_to(TOP))


def files(*patterns: str) -> list[Path]:
    """Files of the repository, without what the toolchain made of them."""
    found = (path for pattern in patterns for path in TOP.glob(pattern) if "out" not in path.relative_to(TOP).parts)
    return sorted(found)


@lru_cache(maxsize=None)
def definitions(has_heads: bool = True) -> dict[Clause, set[Word]]:
    """Of each cited clause the definitions below the citation, those below the head of a file too or not."""
    found: dict[Clause, set[Word]] = defaultdict(set)
    for path in files("crates/*/specs/**/*.antt"):
        if "laws" not in path.relative_to(TOP).parts and path.stem not in ("Lib", "laws"):
            for block, clauses in cited_in(path):
                for clause in clauses if has_heads or not block.is_head else ():
                    found[clause] |= {(path, word) for word in words_below(path, block)}
    return found


@lru_cache(maxsize=None)
def sources() -> dict[Clause, set[str]]:
    """Of each cited clause the items of sources below the citation; of a file's head the file."""
    found: dict[Clause, set[str]] = defaultdict(set)
    for path in files("crates/*/src/**/*.rt"):
        if "_tests" not in str(path):
            for block, clauses in cited_in(path):
                item = "" if block.is_head else "".join(f": {word}" for word in words_below(path, block))
                for clause in clauses:
                    found[clause].add(relative(path) + item)
    return found


@lru_cache(maxsize=None)
def cited_by(*patterns: str) -> dict[Clause, set[str]]:
    """Of each cited clause the files that cite it."""
    found: dict[Clause, set[str]] = defaultdict(set)
    for path in files(*patterns):
        for _, clauses in cited_in(path):
            for clause in clauses:
                found[clause].add(relative(path))
    return found


@lru_cache(maxsize=None)
def senders() -> dict[str, set[str]]:
    """Of each class and instruction the scripts that send it, in an apdu line or in a block of its own."""
    found: dict[str, set[str]] = defaultdict(set)
    for path in files("rows/*.rows", "examples/*.script"):
        for line in path.read_bytes().decode("latin-1").splitlines():
            sent = re.match(r"apdu ([0-9A-Fa-f]{4})|block 00(?:00|40)[0-9A-Fa-f]{2}([0-9A-Fa-f]{4})", line)
            if sent:
                found[(sent[1] or sent[2]).upper()].add(relative(path))
    return found


@lru_cache(maxsize=None)
def requests() -> dict[str, tuple[str, str]]:
    """Of each class and instruction its row in the table of commands, and the request that the row makes."""
    file, found = reading().file_of(MODEL / "CommandTable.antt"), {}
    kinds = re.findall(r"^  (\w+) : ", reading().file_of(MODEL / "Requests.antt").words["Request"], re.M)
    for row, text in file.words.items():
        header = re.search(r"class = 0x(\w\w);\s*instruction = (\w+)", text)
        meaning = re.search(r"meaning = (.*)", text, re.S)
        if header and meaning:
            kind = next(name for name in re.findall(r"\w+", meaning[1]) if name in kinds)
            # (a row of several commands takes the instruction from a word of its own, by their names)
            several = re.findall(r"= 0x(\w\w)", file.words.get(header[2], ""))
            for instruction in several or [header[2][2:]]:
                found[f"{header[1]}{instruction}".upper()] = row, kind
    return found


def of_command(key: str) -> set[Word]:
    """The definitions of one command: its row of the table, and what the model says of the request."""
    if key not in requests():
        return set()
    row, kind = requests()[key]
    found, steps = {(MODEL / "CommandTable.antt", row)}, reading().file_of(MODEL / "Steps.antt")
    for name in re.findall(r"\bon_\w+", reading().behaviour(kind) if kind else ""):
        module, word = steps.scope.names[name]
        found.add((CRATES.joinpath(*module.split(".")[1:]).with_suffix(".antt"), word))
    return found


@dataclass(frozen=True)
class Promise:
    """A clause of a public call's contract, its place, and the definitions and types that it rests on."""

    crate: str
    path: Path
    call: str
    clause: str
    words: frozenset[Word]
    types: frozenset[Type]

    def is_of(self, source: str) -> bool:
        """Whether a source, or an item of it, has this call."""
        name, _, item = source.partition(": ")
        return relative(self.path) == name and (not item or item in self.call.split("::"))


@lru_cache(maxsize=None)
def promises() -> list[Promise]:
    """The clauses of all public calls that another crate can make."""
    tool, found = reading(), []
    crates = (path.name for path in CRATES.iterdir() if (path / "src").is_dir())
    for crate in sorted(name for name in crates if "_tests" not in name):
        names, modules = tool.exported(crate)
        for path in sorted((CRATES / crate / "src").rglob("*.rt")):
            scope = tool.Scope().read(tool.source_of(path))
            for function, owner, text in tool.calls_in(path):
                if path.name in modules or (owner or function) in names:
                    call = f"{owner}::{function}" if owner else f"{crate}::{function}"
                    for clause, body in tool.clauses_of(text)[1].items():
                        found.append(Promise(crate, path, call, clause, *rests_on(body, scope)))
    return found


def rests_on(text: str, scope: object) -> tuple[frozenset[Word], frozenset[Type]]:
    """The definitions and the types that a clause of a contract rests on."""
    words, types = named_in(text, scope, None)
    found, todo = set(words | types), [*words, *types]
    while todo:
        for inner in below(todo.pop()):
            if inner not in found:
                found.add(inner)
                todo.append(inner)
    definitions_found = frozenset(it for it in found if isinstance(it[0], Path))
    return definitions_found, frozenset(it for it in found if not isinstance(it[0], Path))


def named_in(text: str, scope: object, here: object) -> tuple[set[Word], set[Type]]:
    """The definitions and types that a text names itself."""
    it = reading().Reading()
    words: set[Word] = set()
    it.word = lambda file, name: words.add((file.path, name))
    # (the definitions below a type are followed by `below`)
    it.type = lambda crate, place, name: it.declared.add((crate, kind_of(place, name)))
    it.text(text, scope, here)
    return words, it.declared


def kind_of(place: list[str], name: str) -> str:
    """The type of a word that a source declares."""
    return name if place[-1] == "TheConstants" else place[-2] if place[-1] == "TheVariants" else place[-1]


@lru_cache(maxsize=None)
def below(node: Word | Type) -> frozenset[Word | Type]:
    """What a definition, or what contracts see a type as, names itself."""
    tool = reading()
    if isinstance(node[0], Path):
        file = tool.file_of(node[0])
        words, types = named_in(file.words[node[1]], file.scope, file)
    else:
        model = tool.model_of(*node)
        words, types = named_in(model[1], model[2], None) if model else (set(), set())
    return frozenset(words | types)


def types_of(source: str) -> set[Type]:
    """The types that a source declares, or the one that is named."""
    name, _, item = source.partition(": ")
    found = TYPE.findall("\n".join(lines_of(TOP / name)))
    return {(name.split("/")[1], kind) for kind in found if not item or kind == item}


def promised(words: set[Word], cited: set[str]) -> dict[str, list[str]]:
    """The clauses of contracts that rest on definitions. Where there are none, those of the sources that cite the
    clause, and those that rest on their types."""
    types = set() if words else {it for source in cited for it in types_of(source)}
    holds = [
        it
        for it in promises()
        if it.words & words or (not words and (it.types & types or any(it.is_of(source) for source in cited)))
    ]
    found: dict[str, list[str]] = {}
    for it in [it for it in holds if it.crate in OUTER] or holds:
        found.setdefault(it.call, []).append(it.clause)
    return found


@lru_cache(maxsize=None)
def edits() -> list[tuple[str, str, frozenset[Clause]]]:
    """The mutants: each by its file, with the item that it changes and the clauses that are cited for it."""
    found = []
    for path in files("crates/*/must-fail/*.edit", "crates/*/more-edits/*.edit"):
        text = path.read_text(encoding="utf-8")
        for name, old in re.findall(r"^file: (.*)\nold: ?\s*(.*)", text, re.M):
            source = path.parent.parent / name
            if source.is_file():
                found.append((relative(path), *place_of(source, old)))
    return found


@lru_cache(maxsize=None)
def edits_by_clause() -> dict[Clause, set[str]]:
    """Of each clause the mutants of items that cite it."""
    found: dict[Clause, set[str]] = defaultdict(set)
    for edit, _, clauses in edits():
        for clause in clauses:
            found[clause].add(edit)
    return found


def place_of(source: Path, old: str) -> tuple[str, frozenset[Clause]]:
    """The item of a source that has a line, and the clauses that are cited for it."""
    lines = lines_of(source)
    at = next((number for number, line in enumerate(lines) if old.strip() and old.strip() in line), 0)
    begun = next((number for number in range(at, -1, -1) if FUNCTION.match(lines[number])), 0)
    item = re.search(r"fn (\w+)", lines[begun])
    above_it = [it for it in cited_in(source) if it[0].end <= begun and is_doc_of(lines, it[0].end, begun)]
    near = [clauses for _, clauses in above_it]
    root = source.parent / "lib.rt"
    head = [clauses for path in (source, root) if path.is_file() for block, clauses in cited_in(path) if block.is_head]
    return item[1] if item else "", frozenset().union(*(near or head[:1]))


def is_doc_of(lines: list[str], end: int, begun: int) -> bool:
    """Whether a comment that ends there is the one above an item: only attributes are between them."""
    return all(line.strip().startswith("#[") for line in lines[end:begun])


def within(found: dict[Clause, set[T]], clauses: tuple[Clause, ...]) -> set[T]:
    """What cites one of the clauses or a part of it."""
    cited_there = (things for cited, things in found.items() if any(cited.is_in(clause) for clause in clauses))
    return set[T]().union(*cited_there)


def above(found: dict[Clause, set[T]], clause: Clause) -> set[str]:
    """What cites the nearest clause above it, each with that clause in brackets."""
    parts = clause.number.split(".") if clause.number[:1].isdigit() else [clause.number]
    for count in range(len(parts) - 1, -1, -1):
        upper = Clause(clause.standard, ".".join(parts[:count]))
        if found.get(upper):
            return {f"{thing} ({upper.number or upper.standard})" for thing in found[upper]}
    return set()


def evidence(clause: Clause, key: str | None = None, alike: tuple[Clause, ...] = ()) -> Evidence:
    """The evidence for a clause. `key` is the class and instruction of the command that it is about; `alike` are the
    clauses of other standards about the same command."""
    clauses = (clause, *alike)
    # (the head of a file is about all of its commands)
    it = Evidence(within(definitions(has_heads=not key), clauses), within(sources(), clauses))
    it.definitions |= of_command(key) if key else set()
    it.promises = promised(it.definitions, it.sources)
    shown, tests = cited_by("rows/*.rows", "examples/*.script"), cited_by("crates/*_tests/src/**/*.rt")
    it.scripts = (senders()[key] if key else set()) | within(shown, clauses)
    it.tests = within(tests, clauses)
    if not it.scripts and not it.tests:
        it.scripts, it.tests = above(shown, clause), above(tests, clause)
    kind = requests()[key][1] if key in requests() else None
    it.mutants = refused(clauses, kind) or above(edits_by_clause(), clause)
    return it


def refused(clauses: tuple[Clause, ...], kind: str | None) -> set[str]:
    """The mutants of clauses: those of items that cite one, or whose name has the command's."""
    return {
        edit
        for edit, item, cited in edits()
        if any(it.number and it.is_in(clause) for it in cited for clause in clauses) or (kind and kind in item)
    }
