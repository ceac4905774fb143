"""The picture of docs/COST.md: how the cost of each command grows, for the bench and for the plain core. The SVG
follows the reader's light or dark scheme."""
from typing import NamedTuple
from xml.sax.saxutils import escape

# The two colours differ for readers who see fewer colours, too (the palette of Okabe and Ito).
STYLE = """<style>
text { font: 11px sans-serif; fill: #222222 }
text.name { font-weight: bold }
path { fill: none; stroke-width: 2 }
path.plain { stroke-dasharray: 5 3 }
path.axis { stroke: #d8d8d8; stroke-width: 1 }
.paper { fill: #ffffff }
path.bench { stroke: #0072b2 } circle.bench, text.bench { fill: #0072b2 }
path.plain { stroke: #d55e00 } circle.plain, text.plain { fill: #d55e00 }
@media (prefers-color-scheme: dark) {
text { fill: #e6edf3 }
path.axis { stroke: #30363d }
.paper { fill: #0d1117 }
path.bench { stroke: #56b4e9 } circle.bench, text.bench { fill: #56b4e9 }
path.plain { stroke: #e69f00 } circle.plain, text.plain { fill: #e69f00 }
}
</style>"""
# sizes in pixels
COLUMNS, WIDE, HIGH, GAP, HEAD, MARGIN = 3, 280, 170, 16, 34, 16
LEFT, RIGHT, TOP, BOTTOM = 8, 62, 38, 30


class Measured(NamedTuple):
    """A curve that was counted: the command, what grows, and of each point its place and both costs."""

    command: str
    growing: str
    points: list[tuple[int, int, int]]


def text(x: float, y: float, words: str, more: str = "") -> str:
    """A line of text."""
    return f'<text x="{x:g}" y="{y:g}"{more}>{escape(words)}</text>'


def nice(most: int) -> int:
    """The least number of one digit and zeros that is not below another one."""
    step = 10 ** (len(str(most)) - 1)
    return int(-(-most // step) * step)


class Panel:
    """One curve, and where it lies."""

    def __init__(self, curve: Measured, place: int):
        self.curve = curve
        self.x = MARGIN + place % COLUMNS * (WIDE + GAP)
        self.y = MARGIN + HEAD + place // COLUMNS * (HIGH + GAP)
        self.most = nice(max(max(point[1:]) for point in curve.points))
        self.last = curve.points[-1][0]

    def at(self, place: int, cost: int) -> tuple[float, float]:
        """Where a cost lies in the picture."""
        width, height = WIDE - LEFT - RIGHT, HIGH - TOP - BOTTOM
        return self.x + LEFT + width * place / self.last, self.y + TOP + height * (1 - cost / self.most)

    def frame(self) -> list[str]:
        """The name, the axes and their ends."""
        (left, low), (right, high) = self.at(0, 0), self.at(self.last, self.most)
        return [
            text(self.x + LEFT, self.y + 14, self.curve.command, ' class="name"'),
            text(self.x + LEFT, self.y + 29, f"by {self.curve.growing}, up to {self.most:,} instructions"),
            f'<path class="axis" d="M{left:.1f} {high:.1f} V{low:.1f} H{right:.1f}"/>',
            text(left, low + 15, "0"),
            text(right, low + 15, f"{self.last:,}", ' text-anchor="end"'),
        ]

    def line(self, which: int, name: str) -> list[str]:
        """One program's line, its points, and its last cost."""
        places = [self.at(point[0], point[which]) for point in self.curve.points]
        path = " L".join(f"{x:.1f} {y:.1f}" for x, y in places)
        dots = [f'<circle class="{name}" cx="{x:.1f}" cy="{y:.1f}" r="2.5"/>' for x, y in places]
        return [f'<path class="{name}" d="M{path}"/>', *dots]

    def ends(self) -> list[str]:
        """The last costs, behind the lines; where they are close, one above the other."""
        _, bench, plain = self.curve.points[-1]
        (lower, below), (upper, above) = sorted([(bench, "bench"), (plain, "plain")])
        x, high = self.at(self.last, upper)
        low = max(self.at(self.last, lower)[1], high + 12)
        ends = [(high, upper, above), (low, lower, below)]
        return [text(x + 6, y + 4, f"{cost:,}", f' class="{name}"') for y, cost, name in ends]

    def parts(self) -> list[str]:
        """All of it."""
        return [*self.frame(), *self.line(2, "plain"), *self.line(1, "bench"), *self.ends()]


def picture(curves: list[Measured]) -> str:
    """The curves as an SVG."""
    rows = -(-len(curves) // COLUMNS)
    width = 2 * MARGIN + COLUMNS * WIDE + (COLUMNS - 1) * GAP
    height = 2 * MARGIN + HEAD + rows * HIGH + (rows - 1) * GAP
    y = MARGIN + 12
    legend = [
        f'<path class="bench" d="M{MARGIN + LEFT} {y - 4} h24"/>',
        text(MARGIN + LEFT + 30, y, "the bench"),
        f'<path class="plain" d="M{MARGIN + LEFT + 110} {y - 4} h24"/>',
        text(MARGIN + LEFT + 140, y, "the plain core"),
    ]
    panels = [part for place, curve in enumerate(curves) for part in Panel(curve, place).parts()]
    size = f'width="{width}" height="{height}" viewBox="0 0 {width} {height}"'
    title = "<title>Instructions of a line, by what makes it dearer</title>"
    paper = f'<rect class="paper" width="{width}" height="{height}"/>'
    opening = f'<svg xmlns="http://www.w3.org/2000/svg" {size}>'
    return "\n".join([opening, title, STYLE, paper, *legend, *panels, "</svg>\n"])
