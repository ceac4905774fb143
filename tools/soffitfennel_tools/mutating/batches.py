"""Groups of mutants that one check can try. The prover judges a function by its own text and by the contracts of those
that it calls, never by their text. So an error in a function shows what its own mutant broke."""
from __future__ import annotations

from .edits import Edit

# the mutants of a check: each takes memory beside the others
MOST = 24


def fits(edit: Edit, group: list[Edit]) -> bool:
    """True if a mutant can join a group: each changes the inside of other functions."""
    return (
        len(group) < MOST
        and all(it.is_inside for it in (edit, *group))
        and not any(it.names & edit.names for it in group)
    )


def batches_of(edits: list[Edit]) -> list[list[Edit]]:
    """The mutants in groups."""
    groups: list[list[Edit]] = []
    for edit in edits:
        group = next((it for it in groups if fits(edit, it)), None)
        if group is None:
            groups.append([edit])
        else:
            group.append(edit)
    return groups
