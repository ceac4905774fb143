"""The picture of a sweep: a column for each device write, a row for each mask, coloured by outcome."""
from collections import Counter
from typing import Any
from xml.sax.saxutils import escape

from ..explaining.templates import count
from ..svg import rect, text

from .outcomes import AFTER, BEFORE, UNCHANGED, Found, Sweep, ranges

# The palette of Okabe and Ito, which the colour-blind can tell apart.
CARD_COLOURS = {BEFORE: "#0072b2", UNCHANGED: "#0072b2", AFTER: "#e69f00"}
OTHER_COLOURS = ("#009e73", "#cc79a7", "#d55e00", "#56b4e9", "#f0e442")
STYLE = """<style>svg{fill:#222222}.paper{fill:#ffffff}.grid{fill:#e8e8e8}.soft{fill:#5a5a5a}.commit{fill:#c00000}
.frame{fill:none;stroke:#c00000;stroke-width:1.5}@media (prefers-color-scheme:dark){svg{fill:#e6edf3}
.paper{fill:#0d1117}.grid{fill:#21262d}.soft{fill:#9aa4ae}.commit{fill:#ff7b72}.frame{stroke:#ff7b72}}</style>"""
GATE = "G the journal's gate"
KINDS = {"pairs": "P old words in pairs", "gate": GATE, "commit": GATE, "words": "W new words",
         "fill": "F a free block", "alone": "1 one word alone", "same": "S words that are there already"}
# in pixels: the margin, the left upper corner of the columns, the height of a row, the width of a letter at most
MARGIN, LEFT, TOP, ROW, LETTER = 16, 112, 104, 18, 6.2
COMMIT = '<path class="commit" d="M{:g} {:g} h10 l-5 8 z"/>'
END, MIDDLE, SOFT = ' text-anchor="end"', ' text-anchor="middle"', ' class="soft"'


def rows_of(sweep: Sweep) -> list[str]:
    """The name of each row: that of a mask, or on a flash that of an operation."""
    if sweep.seeds is not None:
        return ["whole", *(f"operation {it}" for it in range(max(it["operations"] for it in sweep.writes)))]
    words = max(it["words"] for it in sweep.writes)
    return ["none new", "all new", *(f"word {it + 1} new" for it in range(words) if words > 1)]


class Picture:
    """The places in the picture, and its parts."""

    def __init__(self, sweep: Sweep):
        self.rows = rows_of(sweep)
        self.sweep, self.height, self.column = sweep, ROW * len(self.rows), max(6, min(28, 900 / len(sweep.writes)))
        others = iter(OTHER_COLOURS)
        self.colours = {it: CARD_COLOURS.get(sweep.meaning(it), "") or str(next(others, "#888888"))
                        for it in sweep.outcomes}

    def cells_of(self, write: dict[str, Any]) -> list[tuple[int, Counter[Found]]]:
        """The cells of a write, each with its row."""
        cells = [(mask, runs) for (at, mask), runs in self.sweep.cells.items() if at == write["write"]]
        if self.sweep.seeds is None:
            return list(enumerate(runs for _, runs in cells))
        return [((operation + 1) % (write["operations"] + 1), runs) for operation, runs in cells]

    def column_drawn(self, write: dict[str, Any]) -> list[str]:
        """A write: its number and kind, a cell for each mask divided by outcomes, and the mark of a commit."""
        number, is_commit = write["write"], write["write"] in self.sweep.commits
        left = LEFT + self.column * (number - 1)
        middle = left + self.column / 2
        parts = [text(middle, TOP - 22, KINDS[write["kind"]][0], MIDDLE + SOFT)] if self.column >= 10 else []
        if is_commit or self.column >= 18 or number % 5 == 0:
            parts.append(text(middle, TOP - 6, str(number), MIDDLE))
        for row, runs in self.cells_of(write):
            x = left
            for found in (it for it in self.colours if it in runs):
                width = (self.column - min(1, self.column / 10)) * runs[found] / runs.total()
                parts.append(rect(x, TOP + ROW * row, width, ROW - 1, self.colours[found]))
                x += width
        frame = rect(left - 1, TOP - 1, self.column + 1, self.height + 1, "none", ' class="frame"')
        return [*parts, COMMIT.format(middle - 5, TOP - 45), frame] if is_commit else parts

    def legend(self, kinds: str) -> list[str]:
        """What the colours, the mark and the letters mean."""
        parts, y, sweep = [], TOP + self.height + 12, self.sweep
        for found, letter in sweep.letters.items():
            told = f"{letter}: {sweep.meaning(found)}, {count(sweep.outcomes[found], 'run')}"
            parts += [rect(MARGIN, y, 14, 12, self.colours[found]), text(MARGIN + 22, y + 11, told)]
            y += ROW
        if sweep.commits:
            told = f"commit at write {ranges(sweep.commits)}: the outcome turns once all its words are new"
            parts += [COMMIT.format(MARGIN + 2, y + 2), text(MARGIN + 22, y + 11, told)]
        rows = "rows: which words of the write are new when power fails"
        if sweep.seeds is not None:
            rows = "rows: the write is whole when power fails, or power fails in this program or erase of it"
        return [*parts, text(MARGIN, y + 29, kinds, SOFT), text(MARGIN, y + 47, rows, SOFT)]

    def svg(self) -> str:
        """The whole picture, as wide as its columns or its longest line."""
        sweep, across = self.sweep, self.column * len(self.sweep.writes)
        told = (f"{count(len(sweep.writes), 'device write')}{sweep.place()}, {count(sweep.runs, 'run')};"
                f" after each cut at most {count(sweep.depth, 'power-on')} cut too")
        kinds = "it writes: " + ", ".join(dict.fromkeys(KINDS[it["kind"]] for it in sweep.writes))
        width = max(LEFT + across, 440, MARGIN + LETTER * max(len(kinds), len(told))) + MARGIN
        height = TOP + self.height + ROW * (len(self.colours) + 4) + MARGIN
        size = f'width="{width:g}" height="{height:g}" viewBox="0 0 {width:g} {height:g}"'
        return "\n".join([
            f'<svg xmlns="http://www.w3.org/2000/svg" {size} font-family="sans-serif" font-size="12" role="img">',
            f"<title>{escape(sweep.name)}, cut at each device write</title>{STYLE}",
            rect(0, 0, width, height, "none", ' class="paper"'),
            text(MARGIN, MARGIN + ROW, f"{sweep.name}, answered {sweep.answer}", ' font-weight="bold"'),
            text(MARGIN, MARGIN + 2 * ROW, told), text(LEFT - 6, TOP - 22, "it writes", END + SOFT),
            text(LEFT - 6, TOP - 6, "device write", END + SOFT),
            *(text(LEFT - 6, TOP + ROW * at + 13, it, END) for at, it in enumerate(self.rows)),
            rect(LEFT, TOP, across, self.height, "none", ' class="grid"'),
            *(part for it in sweep.writes for part in self.column_drawn(it)),
            *self.legend(kinds), "</svg>"])
