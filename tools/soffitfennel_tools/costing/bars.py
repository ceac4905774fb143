"""The second picture of docs/COST.md: the ratio of each kind of line, and the device writes of each command, out of the
tables of the page, which are compared with what is counted."""
from collections.abc import Iterator
from pathlib import Path
from typing import NamedTuple

from soffitfennel_tools.svg import rect, text

PICTURE = "bars.svg"
STYLE = """<style>
text { font: 11px sans-serif; fill: #222222 }
text.head { font-weight: bold }
.paper { fill: #ffffff }
.bar { fill: #0072b2 }
.limit { stroke: #d55e00; stroke-dasharray: 5 3 }
@media (prefers-color-scheme: dark) {
text { fill: #e6edf3 }
.paper { fill: #0d1117 }
.bar { fill: #56b4e9 }
.limit { stroke: #e69f00 }
}
</style>"""
# sizes in pixels
WIDTH, MARGIN, ROW, NAMES, BARS, GAP = 760, 16, 17, 330, 330, 26
# the ratio above which a kind has its reason on the page
LIMIT = 1.25


class Bar(NamedTuple):
    """A bar: its name, its length, and the number as the page has it."""

    name: str
    length: float
    shown: str


def rows(page: str, head: str) -> Iterator[list[str]]:
    """The cells of a table's rows, by its first line."""
    for line in page[page.index(head):].splitlines()[2:]:
        if not line.startswith("|"):
            return
        yield [cell.strip().replace("`", "") for cell in line.strip("|").split("|")]


def ratios(page: str) -> list[Bar]:
    """The ratio of each kind of line that the page shows."""
    return [Bar(row[0], float(row[3]), row[3]) for row in rows(page, "| line | bench | plain core | ratio |")]


def writes(page: str) -> list[Bar]:
    """The device writes of each command that makes any."""
    numbers = [(row[0], row[1]) for row in rows(page, "| command | writes | of the gate |")]
    return [Bar(name, float(number.replace(",", "")), number) for name, number in numbers]


def panel(y: int, title: str, bars: list[Bar], most: float) -> list[str]:
    """A title, and a bar a line; one that is longer than there is room for ends at the edge."""
    parts = [text(MARGIN, y + 12, title, ' class="head"')]
    for place, bar in enumerate(bars, 1):
        top, wide = y + place * ROW + 4, round(BARS * min(bar.length / most, 1), 1)
        parts += [
            text(MARGIN + NAMES - 8, top + 11, bar.name, ' text-anchor="end"'),
            rect(MARGIN + NAMES, top + 2, wide, ROW - 5, "#0072b2", ' class="bar"'),
            text(MARGIN + NAMES + BARS + 8, top + 11, bar.shown),
        ]
    return parts


def draw(page: str) -> str:
    """The picture of a page's tables."""
    upper, lower = ratios(page), writes(page)
    middle = MARGIN + (len(upper) + 1) * ROW + GAP
    high = middle + (len(lower) + 1) * ROW + MARGIN
    edge = MARGIN + NAMES + round(BARS * LIMIT / 2, 1)
    limit = f'<path class="limit" d="M{edge} {MARGIN + 16} V{middle - GAP}"/>'
    opening = f'<svg xmlns="http://www.w3.org/2000/svg" width="{WIDTH}" height="{high}" viewBox="0 0 {WIDTH} {high}">'
    paper = f'<rect class="paper" width="{WIDTH}" height="{high}"/>'
    title = "<title>Instructions of a line beside the plain core's, and device writes of a command</title>"
    above = panel(MARGIN, f"Instructions, for one of the plain core (dashed: {LIMIT})", upper, 2)
    below = panel(middle, "Device writes (the longest bars end at 50)", lower, 50)
    return "\n".join([opening, title, STYLE, paper, *above, limit, *below, "</svg>\n"])


def fault(page: str, picture: Path) -> str | None:
    """What is wrong with the stored picture, if anything."""
    stored = picture.read_text(encoding="utf-8") if picture.is_file() else None
    return None if stored == draw(page) else "it isn't that of the page's tables: tools/dev/wear --picture draws it"
