"""The evidence for a clause, as text."""
from __future__ import annotations

from collections.abc import Iterator

from .evidence import Evidence, Word, evidence, relative
from .page import Entry, entries


def evidence_of(entry: Entry) -> Evidence:
    """The evidence for a row of the page; of a command it comes from the clauses of all standards about it."""
    alike = tuple(it.clause for it in entries() if entry.key and it.key == entry.key and it.clause != entry.clause)
    return evidence(entry.clause, entry.key, alike)


def named(word: Word) -> str:
    """A definition by its file and name."""
    path, name = word
    return f"{relative(path).removeprefix('crates/').removesuffix('.antt')}: {name}"


def calls(found: dict[str, list[str]]) -> list[str]:
    """Calls with their clauses; of a clause without a name the call alone."""
    return [
        call + ("" if clauses == ["ensures"] else f" ({', '.join(dict.fromkeys(clauses))})")
        for call, clauses in sorted(found.items())
    ]


def by_file(words: set[Word]) -> list[str]:
    """Definitions, those of one file together."""
    found: dict[str, list[str]] = {}
    for word in sorted(words):
        name, _, definition = named(word).partition(": ")
        found.setdefault(name, []).append(definition)
    return [f"{name}: {', '.join(words)}" for name, words in found.items()]


def whole(entry: Entry) -> Iterator[str]:
    """All evidence for a clause."""
    yield f"{entry.clause} {entry.title}: {entry.status}".replace(" :", ":")
    if not entry.is_there:
        yield f"  {entry.said}"
        return
    it = evidence_of(entry)
    for name, things in (
        ("definitions", by_file(it.definitions)),
        ("sources", sorted(it.sources)),
        ("contracts", calls(it.promises)),
        ("scripts", sorted(it.scripts)),
        ("tests", sorted(it.tests)),
        ("mutants", sorted(it.mutants)),
    ):
        yield f"  {name}: {len(it.definitions if name == 'definitions' else things) or 'none'}"
        yield from (f"    {thing}" for thing in things)
