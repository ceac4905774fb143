"""The picture of a memory: which pages hold what, and which of them the next power-on writes back."""
from collections.abc import Iterator
from itertools import groupby
from typing import NamedTuple

from ..explaining.templates import count as counted
from ..svg import rect, text

from . import layout
from .rollback import block_owner, steps, subject_of
from .tree import Reading

# sizes in pixels, and how many pages are in a row
MARGIN, LABELS, HEAD, CELL, LINE = 16, 44, 44, 12, 18
ROW = 64
# The colours differ for whoever sees fewer colours too (the palette of Okabe and Ito); each in light and in dark.
PARTS = {
    "header": ("#000000", "#ffffff"),
    "file entries": ("#0072b2", "#3b9fdd"),
    "PINs": ("#cc79a7", "#dd93bb"),
    "journal": ("#f0e442", "#f0e442"),
    "journal, not in use": ("#f7f1b5", "#55522a"),
    "free": ("#e4e4e4", "#3a3a3a"),
    "not used": ("#f6f6f6", "#262626"),
}
BODIES = (("#009e73", "#1bc094"), ("#e69f00", "#e69f00"), ("#56b4e9", "#8ccdf2"))
TEXT, PAPER, ROLLED_BACK = ("#222222", "#dddddd"), ("#ffffff", "#161616"), ("#c00000", "#ff5a4d")
# how many files the legend names
MOST_NAMED = 12


class Page(NamedTuple):
    """What a page holds: its colour's class, a few words, and whether recovery writes it."""

    part: str
    words: str
    is_rolled_back: bool


def pages_of(reading: Reading) -> list[Page]:
    """What each page holds."""
    marked = set() if reading.bad_journal else {it.address // layout.PAGE_WORDS for it in steps(reading)}
    return [Page(*part_of(reading, it), it in marked) for it in range(reading.image.pages)]


def part_of(reading: Reading, page: int) -> tuple[str, str]:
    """The class of a page's colour, and what the page holds."""
    card = reading.card
    if page == layout.HEADER:
        return "header", "header"
    if page < layout.PIN_PAGE:
        used = reading.image.words[layout.PAGE_WORDS * page] != 0
        return "file entries" if used else "free", subject_of(reading, page)
    if page < layout.GATE_PAGE:
        return "PINs", subject_of(reading, page)
    if page < layout.BLOCK_PAGE:
        first = (page - layout.JOURNAL_PAGE) * layout.PAGE_WORDS // 2
        return "journal" if first < reading.image.gate else "journal, not in use", "journal"
    if card is None:
        return "free", "block"
    owner = block_owner(card, page)
    if page not in card.owners:
        return owner, owner
    bodies = [it.path for it in card.files if it.blocks]
    return f"body{bodies.index(owner) % len(BODIES)}", owner


def style() -> str:
    """The colours, light, and dark where the reader's screen is."""
    parts = {**PARTS, **{f"body{i}": it for i, it in enumerate(BODIES)}, "text": TEXT, "paper": PAPER}
    rules = [[f".{name_of(part)}{{fill:{colours[i]}}}" for part, colours in parts.items()] for i in (0, 1)]
    frames = [f".back{{fill:none;stroke:{ROLLED_BACK[i]};stroke-width:2}}" for i in (0, 1)]
    light, dark = ("".join([*it, frame]) for it, frame in zip(rules, frames))
    return f"<style>{light}@media (prefers-color-scheme:dark){{{dark}}}</style>"


def name_of(part: str) -> str:
    """The class of a part."""
    return part.replace(",", "").replace(" ", "-")


def box(x: float, y: float, width: float, height: float, part: str, words: str = "") -> str:
    """A rectangle in a part's colour; its words are shown where it is pointed at."""
    plain = rect(x, y, width, height, "", f' class="{name_of(part)}"').replace(' fill=""', "")
    return f"{plain[:-2]}><title>{words}</title></rect>" if words else plain


def grid(pages: list[Page]) -> Iterator[str]:
    """The pages, row by row; neighbours that hold the same are one rectangle."""
    for start in range(0, len(pages), ROW):
        y, x = MARGIN + HEAD + start // ROW * CELL, float(MARGIN + LABELS)
        yield text(MARGIN + LABELS - 6, y + CELL - 2, str(start), ' class="text" font-size="10" text-anchor="end"')
        at = start
        for page, group in groupby(pages[start:start + ROW]):
            count = len(list(group))
            where = f"page {at}" if count == 1 else f"pages {at} to {at + count - 1}"
            yield box(x, y, CELL * count - 1, CELL - 1, page.part, f"{where}: {page.words}")
            if page.is_rolled_back:
                yield rect(x, y, CELL * count - 2, CELL - 2, "none", ' class="back"')
            x, at = x + CELL * count, at + count


def head(reading: Reading) -> list[str]:
    """What is shown."""
    card, image = reading.card, reading.image
    told = [f"A card's memory of {counted(image.pages, 'page')}, {ROW} a row"]
    if card is None:
        told.append("it holds no card")
    else:
        free = f"{len(card.free_chain):,} of {counted(card.blocks, 'block')}"
        told.append(f"{counted(len(card.files), 'file')}; {free} are free")
    if image.gate:
        told[-1] += f"; the journal has {counted(image.gate, 'pair')} to roll back"
    bold = ' class="text" font-weight="bold"'
    return [text(MARGIN, MARGIN + LINE * (i + 1) - 6, it, ' class="text"' if i else bold) for i, it in enumerate(told)]


def legend(reading: Reading, pages: list[Page], top: float) -> list[str]:
    """What the colours mean, and the files by their paths."""
    entries = [(part, part) for part in PARTS if any(it.part == part for it in pages)]
    files = [it for it in reading.card.files if it.blocks] if reading.card else []
    for file in sorted(files, key=lambda it: -len(it.blocks))[:MOST_NAMED]:
        entries.append((part_of(reading, file.blocks[0])[0], f"{file.path}, {counted(len(file.blocks), 'block')}"))
    if len(files) > MOST_NAMED:
        entries.append(("paper", f"and {counted(len(files) - MOST_NAMED, 'smaller file')}"))
    parts = []
    if any(it.is_rolled_back for it in pages):
        parts += [rect(MARGIN + 1, top + 1, 12, 10, "none", ' class="back"')]
        entries.insert(0, ("", "the next power-on writes this page back"))
    for i, (part, words) in enumerate(entries):
        y = top + LINE * i
        parts += [box(MARGIN, y, 14, 12, part)] * bool(part) + [text(MARGIN + 22, y + 11, words, ' class="text"')]
    return parts


def picture(reading: Reading) -> str:
    """The memory as an SVG."""
    pages = pages_of(reading)
    top = MARGIN + HEAD + -(-len(pages) // ROW) * CELL + 12
    below = legend(reading, pages, top)
    width = 2 * MARGIN + LABELS + ROW * CELL
    height = top + LINE * sum("<text" in it for it in below) + MARGIN
    size = f'width="{width}" height="{height}" viewBox="0 0 {width} {height}"'
    return "\n".join(
        [
            f'<svg xmlns="http://www.w3.org/2000/svg" {size} font-family="sans-serif" font-size="12">',
            "<title>The pages of a card's memory</title>",
            style(),
            box(0, 0, width, height, "paper"),
            *head(reading),
            *grid(pages),
            *below,
            "</svg>\n",
        ]
    )
