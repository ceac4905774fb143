"""The reports of a torn session."""
from __future__ import annotations

from collections import Counter
from itertools import groupby

from ..explaining.templates import count
from ..svg import rect, text
from ..testing.reading import Case, Difference

from .cutting import Cut

COLOURS = ("#0072b2", "#e69f00", "#009e73", "#cc79a7", "#56b4e9")
FAULT = "#d50000"
LEFT, TOP, ROW = 60, 60, 18


def name_of(it: Cut) -> str:
    return f"device write {it.write}, mask {it.mask:04X}"


def lines_of(cuts: list[Cut], states: int) -> list[str]:
    """The report for people."""
    lines = [f"{name_of(it)}: {it.fault}" for it in cuts if it.fault]
    good = [it for it in cuts if not it.fault]
    places = {it.places for it in good}
    statuses = Counter("no end in time" if it.status is None else str(it.status) for it in cuts)
    lines.append(f"{count(len(good), 'cut')} led to {len(places)} of the session's {count(states, 'card')}")
    lines.append("the client's status: " + ", ".join(f"{it} {number} times" for it, number in sorted(statuses.items())))
    return lines


def cases_of(cuts: list[Cut], path: str) -> list[Case]:
    """The report as cases of a test: one for each device write."""
    found = []
    for write, group in groupby(cuts, lambda it: it.write):
        faults = [Difference(0, name_of(it), None, None, reason=it.fault) for it in group if it.fault]
        found.append(Case(path, write, f"device write {write}", 1, faults))
    return found


def picture(cuts: list[Cut], title: str) -> str:
    """A column for each write, a row for each mask, coloured by the card that is found."""
    writes, masks = sorted({it.write for it in cuts}), sorted({it.mask for it in cuts})
    column = max(4.0, min(20.0, 900 / len(writes)))
    width, height = LEFT + column * len(writes) + 20, TOP + ROW * len(masks) + 30
    parts = [text(20, 24, title, ' font-weight="bold"')]
    parts += [text(LEFT - 6, TOP + ROW * at + 13, f"{it:04X}", ' text-anchor="end"') for at, it in enumerate(masks)]
    for it in cuts:
        colour = FAULT if it.fault else COLOURS[it.places[0] % len(COLOURS)]
        x, y = LEFT + column * writes.index(it.write), TOP + ROW * masks.index(it.mask)
        parts.append(rect(x, y, column - 0.5, ROW - 1, colour))
    told = "a colour for each card of the session in turn; red: a fault"
    parts.append(text(20, height - 8, told))
    size = f'width="{width:g}" height="{height:g}" viewBox="0 0 {width:g} {height:g}"'
    head = f'<svg xmlns="http://www.w3.org/2000/svg" {size} font-family="sans-serif" font-size="12" role="img">'
    return "\n".join([head, rect(0, 0, width, height, "#ffffff"), *parts, "</svg>"]) + "\n"
