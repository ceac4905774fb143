"""A list of what WCAG 2.1 AA asks of a page, as far as a program can see it."""

from __future__ import annotations

from pathlib import Path
from typing import Any

from .browsers import SIZE, Browser
from .comparing import Tally
from .visitor import Visitor

TAB = "\ue004"
SCRIPT = Path(__file__).with_suffix(".js").read_text(encoding="utf-8").split("\n", 1)[1]
# roles that need a name
NAMED = ("button", "checkbox", "combobox", "textbox", "slider", "link", "image", "region", "heading")
# those that the page has in each browser
LEAST = {"button", "checkbox", "combobox", "textbox", "slider", "link", "region", "heading"}
# the smallest contrast of text, and of the edge of a thing that one uses
OF_TEXT, OF_EDGES = 4.5, 3
NARROW, ZOOMED = 390, 320
# up to this width the page has its narrow form (page.css)
NARROW_FORM = 900
WANTED_FORM = {
    "language": "en",
    "title": True,
    "doubled": 0,
    "lost": [],
    "landmarks": [1, 1, 1],
    "unreached": [],
    "keepsZoom": True,
}
SCHEMES = ("light", "dark")
MOST_TABS = 60
REACHED = (
    "example",
    "share",
    "text",
    "answers",
    "pages",
    "step",
    "play",
    "changed",
    "open",
    "save",
    "secrets",
    "sums",
)


def ask(browser: Browser, what: str, *given: object) -> Any:
    """What the page's script sees."""
    return browser.run(f"return {SCRIPT.strip()}[arguments[0]](...arguments[1])", what, given)


def names(browser: Browser, tally: Tally) -> None:
    """Everything that a screen reader comes to has a name."""
    things = [it for it in browser.things() if it[0] in NAMED]
    nameless = [role for role, name in things if not name.strip()]
    tally.same(nameless, [], f"{browser.name}: each of {len(things)} things has a name")
    tally.true(len(things) > 60, f"{browser.name}: the tree of names: {len(things)}")
    tally.same(LEAST - {role for role, _ in things}, set(), f"{browser.name}: the roles")


def form(browser: Browser, tally: Tally) -> None:
    """Language, title, headings, landmarks, references, scrolling by keys."""
    came = ask(browser, "form")
    for name, it in WANTED_FORM.items():
        tally.same(came[name], it, f"{browser.name}: the form of the page: {name}")
    tally.same(came["headings"], "H1" + 5 * " H2", f"{browser.name}: the headings")


def contrast(visitor: Visitor, browser: Browser, tally: Tally) -> None:
    """Text and edges against what is behind them, in light and dark."""
    for is_dark in (False, True):
        browser.dark(is_dark)
        # (a page is told of them later than the browser)
        visitor.until(f"matchMedia('(prefers-color-scheme: {SCHEMES[is_dark]})').matches", "the visitor's colours")
        came = ask(browser, "contrast", OF_TEXT, OF_EDGES)
        tally.same(came, [], f"{browser.name}: contrast {'in the dark' if is_dark else 'in the light'}")
    browser.dark(False)


def widths(visitor: Visitor, browser: Browser, tally: Tally) -> None:
    """The page fits narrow screens, and a zoom of 400 %."""
    for width in (NARROW, ZOOMED):
        browser.size(width, 800)
        visitor.until(f"innerWidth <= {width}", f"a window of {width} pixels")
        came = browser.run("return document.documentElement.scrollWidth")
        tally.true(came <= width, f"{browser.name}: a width of {width} pixels: the page has {came}")
    browser.size(*SIZE)
    visitor.until(f"innerWidth > {NARROW_FORM}", "a wide window again")


def keys(visitor: Visitor, browser: Browser, tally: Tally) -> None:
    """Tab goes to each thing, and out again."""
    browser.run("document.querySelector('a').focus()")
    reached, unseen = [], []
    for _ in range(MOST_TABS):
        browser.run("window.left = document.activeElement")
        browser.send(TAB)
        # (the focus may move a moment behind the key)
        is_left = visitor.comes_to("document.activeElement !== window.left")
        reached.append(ask(browser, "focus"))
        if not reached[-1] or not is_left:
            break
        if not ask(browser, "isFocusSeen"):
            unseen.append(reached[-1])
    tally.same(unseen, [], f"{browser.name}: the focus is seen on each thing")
    for it in REACHED:
        tally.true(it in reached, f"{browser.name}: Tab reaches {it}, among {reached}")
    tally.true(any("," in it for it in reached), f"{browser.name}: Tab reaches a cell of the grid, among {reached}")
    tally.true(reached[-1] == "" and len(reached) < MOST_TABS, f"{browser.name}: Tab leaves the page: {reached[-1]}")


def check(visitor: Visitor, browser: Browser, tally: Tally) -> None:
    """The whole list, with a cut shown and each detail open."""
    visitor.come()
    visitor.until("soffitfennel.state.found", "the first example")
    browser.run("document.querySelectorAll('details').forEach((it) => { it.open = true; })")
    browser.run("document.querySelectorAll('.cell')[20].dispatchEvent(new MouseEvent('click'))")
    visitor.until("soffitfennel.state.found && document.querySelector('#touched b')", "a cut")
    names(browser, tally)
    form(browser, tally)
    contrast(visitor, browser, tally)
    widths(visitor, browser, tally)
    keys(visitor, browser, tally)
