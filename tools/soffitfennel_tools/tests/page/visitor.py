"""What a visitor does with the page, and what the page must then show."""
from __future__ import annotations

import base64
import time
from collections.abc import Callable
from typing import Any

from .browsers import Browser
from .comparing import Tally, fragment

UP, DOWN, RIGHT, ENTER, ALT, CONTROL = "\ue013", "\ue015", "\ue014", "\ue007", "\ue00a", "\ue009"
# seconds that the page may take for a step: a sweep of many writes is slow on a machine that other programs use too
SECONDS = 600
# of PIN 1 of the factory card, and another one
PIN, OTHER_PIN = "31323334FFFFFFFF", "3938373635FFFFFF"
STEP, EXAMPLE = (f"const it = document.querySelector('#{it}')" for it in ("step", "example"))
IMAGE = """
const [name, letters] = arguments, bytes = Uint8Array.from(atob(letters), (it) => it.charCodeAt(0));
const given = new DataTransfer();
given.items.add(new File([bytes], name));
document.dispatchEvent(new DragEvent("drop", { dataTransfer: given, cancelable: true }));
"""


# what the picture shows: cells by write, runs by card, the colours of each card, legend, marks, sum
DRAWN = """
const all = (selector) => [...document.querySelectorAll(selector)], cells = new Map(), runs = {}, colours = {};
for (const it of all(".cell")) {
  const write = Number(it.dataset.cell.split(",")[0]);
  cells.set(write, (cells.get(write) ?? 0) + 1);
  const told = it.getAttribute("aria-label").split("the card is found ")[1].split("; ");
  const fills = [...it.querySelectorAll("rect")].map((rect) => rect.getAttribute("fill"));
  told.forEach((words, at) => {
    const [, card, many] = words.match(/^(.*) \\(([\\d,]+) runs?\\)$/);
    runs[card] = (runs[card] ?? 0) + Number(many.replaceAll(",", ""));
    if (told.length === 1) colours[card] = [...new Set([...(colours[card] ?? []), ...fills])];
  });
}
return {
  cells: [...cells], runs, colours, legend: all("#legend li").map((it) => it.textContent),
  turns: all("#grid .turn").length, tally: document.querySelector("#tally").textContent,
};
"""
# whether the page has run the text as it is now: it runs what is typed a moment behind the last key
IS_RUN = """(({ state }) => state && state.lines.map((it) => it.text).join("\\n") ===
  document.querySelector("#text").value.replace(/\\n$/, ""))(window.soffitfennel)"""
# resolves behind the error of an image: one that the page had before has had its own by then
IMAGE_FAILS = """
const [done] = arguments, it = new Image();
it.onerror = () => done(true);
it.src = "data:,";
"""
# the colours of cards, as tools/sweep --picture has them
CARDS = {"as before the command": "#0072b2", "as after the command": "#e69f00"}


class Visitor:
    """A visitor in a browser at an address."""

    def __init__(self, browser: Browser, url: str, tally: Tally):
        self.browser, self.url, self.tally = browser, url, tally

    def same(self, came: object, wanted: object, what: str) -> None:
        """Compares."""
        self.tally.same(came, wanted, f"{self.browser.name}: {what}")

    def text(self, selector: str) -> str:
        """The text of an element."""
        return str(self.browser.run("return document.querySelector(arguments[0]).textContent", selector))

    def comes_to(self, holds: str) -> bool:
        """Waits until an expression of the page holds; whether it does."""
        end = time.monotonic() + SECONDS
        while not (came := self.browser.run(f"return !!({holds})")) and time.monotonic() < end:
            time.sleep(0.02)
        return bool(came)

    def until(self, holds: str, what: str) -> None:
        """Waits until an expression of the page holds; counts it."""
        self.same(self.comes_to(holds), True, what)

    def come(self, more: str = "") -> None:
        """Opens the page anew."""
        self.browser.get("about:blank")
        self.browser.get(self.url + more)
        self.until("window.soffitfennel || document.querySelector('#tally')?.textContent === ''", f"opens {more[:40]}")

    def script(self, text: str) -> None:
        """Puts a script in the place of the other, as if it was typed."""
        self.browser.run(
            """const it = document.querySelector("#text"); it.value = arguments[0];
            it.setSelectionRange(it.value.length, it.value.length); it.dispatchEvent(new Event("input"))""",
            text,
        )
        self.until(IS_RUN, "the script is taken")

    def types_keys(self, text: str) -> None:
        """Types keys in the script, until it has run with all of them."""
        self.browser.keys("#text", text)
        self.until(IS_RUN, "runs what is typed")

    def printed(self) -> list[str]:
        """What the lines print."""
        shown: list[str] = self.browser.run(
            "return soffitfennel.state.run.rows.map((it) => it.printed).filter((it) => it !== null)"
        )
        return shown

    def value(self) -> str:
        """The script."""
        return str(self.browser.run("return document.querySelector('#text').value"))

    def step_to(self, number: int) -> None:
        """Shows the memory after a write."""
        self.browser.run(f"{STEP}; it.value = arguments[0]; it.dispatchEvent(new Event('input'))", number)

    def choose(self, number: int) -> None:
        """Chooses an example."""
        self.browser.run(f"{EXAMPLE}; it.value = arguments[0]; it.dispatchEvent(new Event('change'))", number)

    def first(self) -> None:
        """The first sight: an example with its sweep."""
        self.come()
        self.until("soffitfennel.state.found", "tries every cut of the first example")
        self.same(self.text("#tally").split("here")[0], "512 ways to lose power tried ", "says how many")
        self.same(
            self.browser.run("return document.querySelectorAll('.cell').length"), 46, "draws a cell for each cut"
        )
        self.same(self.browser.run("return soffitfennel.state.same"), True, "the module's reader prints the same")
        came = self.browser.run(
            """const it = soffitfennel.state, output = it.printed.map((line) => line + "\\n").join("");
            const tries = [[output, 0], [output + "x", 0], [output.replace("9000", "6A82"), 0], [output, 2]];
            return tries.map(([text, status]) => it.isSame({ output: text, status }));"""
        )
        self.same(came, [True, False, False, False], "a difference between the outputs is seen")

    def types(self) -> None:
        """Types commands, a name, a bad line."""
        self.script("")
        self.types_keys(f"on{ENTER}apdu 00A4000C027F10{ENTER}select 2FE2{ENTER}read 0 4{ENTER}")
        self.same(self.browser.run("return soffitfennel.state.run.rows.length"), 4, "four lines")
        wanted = "on\napdu 00A4000C027F10\napdu 00A4000C022FE2\napdu 00B0000004\n"
        self.same(self.value(), wanted, "names become lines")
        self.same(self.printed()[1:], ["< 6A82", "< 9000", "< 981032549000"], "answers")
        self.same("file not found: no file 7F10 is reached from 3F00" in self.text("#answers"), True, "says why")
        self.types_keys("aplu 00A4")
        self.same(self.browser.run("return soffitfennel.state.run.rows.length"), 5, "runs up to a bad line")
        self.same(self.printed()[-1], "error line 5", "a bad line")
        self.same(
            self.text("#because"),
            "Line 5: error line 5. unknown order 'aplu'; is apdu meant?.",
            "says what is wrong with it",
        )

    def cuts(self) -> None:
        """Goes to a cell by keys and cuts there; ticks words and cuts; takes the cut away."""
        self.choose(0)
        self.until("soffitfennel.state.found", "tries every cut")
        self.browser.keys("[data-cell='1,0']", RIGHT + RIGHT + DOWN + DOWN + ENTER)
        self.until("document.querySelector('#text').value.includes('cut 3 0001')", "a cell by keys cuts there")
        self.until("document.querySelector('#touched').textContent.includes('as before the command')", "and says so")
        self.same(
            self.printed()[-4:], ["dark", "atr 3B808131FE458B", "< 9000", f"< {'FF' * 120}9000"], "the file is whole"
        )
        self.same("writes" in self.text("#touched") and "roll back" in self.text("#touched"), True, "it rolls back")
        self.step_to(3)
        self.same(self.text("#gate"), "the gate is 8: the next power-on rolls back 1 changed word", "the journal")
        self.same(self.browser.run("return document.querySelectorAll('#pairs tbody tr').length"), 8, "its pairs")
        self.browser.run(
            "document.querySelectorAll('#changed input')[2].click(); document.querySelector('#cut').click()"
        )
        self.until("document.querySelector('#text').value.includes('cut 3 0005')", "ticked words cut there")
        self.browser.run("document.querySelector('#uncut').click()")
        self.until("!document.querySelector('#text').value.includes('cut ')", "the cut goes away")

    def every_cut(self, script: str, wanted: dict[str, Any]) -> None:
        """The button tries every cut of a command with many writes, and draws what tools/sweep finds."""
        before, command = script.split("# command\n")
        self.script(before + command.split("# probe")[0])
        tally = f"{len(wanted['writes'])} memory writes."
        self.until(f"document.querySelector('#tally').textContent === '{tally}'", "waits")
        self.same(self.browser.run(DRAWN)["cells"], [], "no cell is drawn before the button")
        self.browser.run("soffitfennel.state.found = null")
        self.browser.click("#all")
        self.until("soffitfennel.state.found && document.querySelector('#legend li')", "the button tries every cut")
        drawn = self.browser.run(DRAWN)
        places = [[at, len({0, (1 << words) - 1, *(1 << it for it in range(words))})] for at, (words, _) in
                  enumerate(wanted["writes"], 1)]
        self.same(drawn["cells"], places, "a cell for each write and mask")
        runs = {card: many for many, card in wanted["outcomes"]}
        self.same(drawn["runs"], runs, "the runs of all cells, by the card found")
        self.same(drawn["colours"], {it: [CARDS[it]] for it in drawn["runs"]}, "the colours of the cells")
        legend = [f"{card}: {many:,} run{'s' * (many != 1)}" for many, card in wanted["outcomes"]]
        commits = ", ".join(map(str, wanted["commits"]))
        self.same(drawn["legend"], [*legend, *([f"▼ the commit: write {commits}"] if commits else [])], "the legend")
        self.same(drawn["turns"], len(wanted["commits"]), "a mark for each commit")
        self.same(drawn["tally"].split(" tried")[0], f"{wanted['runs']:,} ways to lose power", "says how many")
        self.choose(0)
        self.until("soffitfennel.state.found && document.querySelector('#all').hidden", "few writes need no button")

    def moves(self) -> None:
        """Alt and arrows, the memory by keys, playing, pasting."""
        self.browser.keys("#text", ALT + DOWN)
        self.until("soffitfennel.state.at === 7", "Alt and down go to the next command")
        self.browser.keys("#text", ALT + UP)
        self.until("soffitfennel.state.at === 4", "Alt and up go back")
        self.browser.keys("#pages", RIGHT + RIGHT)
        self.until("document.querySelector('#pointed').textContent.startsWith('word ')", "the memory's words by keys")
        self.choose(0)
        self.browser.run("document.querySelectorAll('#answers li')[4].click()")
        # (on a busy machine a write may be shown for less time than a question takes)
        self.browser.run(
            """const shown = (window.played = []), step = document.querySelector("#step");
            const look = () => shown.push(Number(step.value));
            new MutationObserver(look).observe(document.querySelector("#step-now"), { childList: true });
            document.querySelector("#play").click()"""
        )
        self.until("played.includes(2)", "plays the writes")
        self.browser.run(
            """const given = new DataTransfer(); given.setData("text", "00 A4 00 0C 02 2F E2\\n00B0000000");
            const it = document.querySelector("#text"); it.value = "";
            const more = { dataType: "text/plain", data: given.getData("text") }; // (as Firefox makes such an event)
            it.dispatchEvent(new ClipboardEvent("paste", { clipboardData: given, cancelable: true, ...more }))"""
        )
        self.until("soffitfennel.state.run.rows.length === 3", "pasted digits are commands")
        self.same(self.printed()[-1], "< 981032547698103254769000", "and run")

    def examples(self) -> None:
        """Each example runs, as the module's own reader runs it."""
        count = self.browser.run("return soffitfennel.examples.length")
        self.same(count > 30, True, f"{count} examples")
        for at in range(count):
            self.choose(at)
            name = self.browser.run("return soffitfennel.examples[arguments[0]].name", at)
            self.same(self.browser.run("return soffitfennel.state.same"), True, f"the example {name}")
            self.same(self.text("#trouble"), "", f"no trouble with {name}")

    def secrets(self) -> None:
        """PINs are hidden until they are asked for, in the list, in a write, and in the journal."""
        change = f"apdu 0024000110{PIN}{OTHER_PIN}"
        self.script(f"on\n{change}\n")
        shown = "['#pins', '#changed', '#pairs'].map((it) => document.querySelector(it).textContent).join()"
        holds = f"/1234|98765|{PIN[:8]}|{OTHER_PIN[:8]}/.test({shown})"
        self.browser.run("document.querySelectorAll('#answers li')[1].click()")
        self.same(self.printed()[-1], "< 9000", "a PIN changes")
        for step in range(self.browser.run("return soffitfennel.memory.writes.length") + 1):
            self.step_to(step)
            self.same(self.browser.run(f"return {holds}"), False, f"no PIN is shown after write {step}")
        self.browser.run("document.querySelector('#secrets').click()")
        self.until(holds, "ticked, PINs are shown")
        self.browser.run("document.querySelector('#secrets').click()")

    def links(self) -> None:
        """A link holds the script, and its text is never markup."""
        script = 'on\n# <img src=x onerror=window.hurt=1><script>window.hurt=1</script>\n"><svg onload=window.hurt=1>'
        self.script(script)
        self.browser.run("document.querySelector('#share').click()")
        self.until("location.hash.startsWith('#s=')", "a link is made")
        self.come(self.browser.run("return location.hash"))
        self.same(self.value(), script, "a link holds the script")
        self.same(self.browser.wait_for(IMAGE_FAILS), True, "an image of the page fails")
        hurt = (
            "return window.hurt !== undefined || document.querySelector('img, #answers svg, #answers script') !== null"
        )
        self.same(self.browser.run(hurt), False, "its text is no markup")

    def hostile_links(self) -> None:
        """A hostile link runs nothing, and is refused with a sentence."""
        for name, hostile in {
            "that is damaged": "s=AAAAAAAA",
            "with other characters": "s=%3Cscript%3E",
            "that is empty": "s=",
            "that unpacks to 12 MB": fragment("on\n" * (1 << 22)),
            "that ends early": fragment("on\nfree\n" * 9)[:-8],
            "with a huge line": fragment("on\n") + "&l=99999999999",
        }.items():
            self.come(f"#{hostile}")
            said = self.text("#trouble")
            self.same(said.startswith("The link’s script wasn’t opened: "), True, f"a link {name}: {said}")
            lines = self.browser.run("return soffitfennel.state.run.rows.length")
            self.same(lines > 3, True, f"an example instead of a link {name}")

    def drops(self, image: bytes) -> None:
        """A card's file is opened, and a damaged one refused; saved ones are as they were; a script's file runs."""
        self.come()
        self.browser.run(IMAGE, "own.card", base64.b64encode(image).decode())
        self.until(
            "document.querySelector('#opened').textContent.includes('own.card, 1,024 pages')", "a card is opened"
        )
        self.script("on\napdu 00A4000C026F0A\napdu 00B0000003\n")
        self.same(self.printed()[1:], ["< 9000", "< ABCDEF9000"], "its file is read")
        self.same("not compared" in self.text("#checked"), True, "says that nothing is compared")
        saved = self.browser.wait_for(
            """const done = arguments[arguments.length - 1];
            URL.createObjectURL = (it) => { it.arrayBuffer().then((bytes) => done(Array.from(new Uint8Array(bytes))));
              return "data:,"; };
            document.querySelectorAll("#answers li")[0].click(); document.querySelector("#save").click()"""
        )
        self.same(bytes(saved) == image, True, "a saved card has the same bytes")
        for name, data, why in (
            ("short.card", image[:-1], "a memory image has 64 bytes a page"),
            ("noise.card", bytes(len(image)), "no valid card"),
            ("<b>big.card", bytes(1 << 19), "a card has at most 262,144 bytes"),
        ):
            self.browser.run(IMAGE, name, base64.b64encode(data).decode())
            self.until("document.querySelector('#trouble').textContent", f"{name} is refused")
            self.same(
                why in self.text("#trouble") and name in self.text("#trouble"),
                True,
                f"says why: {self.text('#trouble')}",
            )
        self.same("own.card" in self.text("#opened"), True, "the card stays")
        self.browser.run("document.querySelector('#factory').click()")
        self.until("soffitfennel.state.same", "the factory card comes back")
        self.browser.run(IMAGE, "my.script", base64.b64encode(b"on\nfree\n").decode())
        self.until("soffitfennel.state.lines.length === 2", "a script's file is opened")

    def all(self, image: bytes) -> None:
        """All of it."""
        steps: tuple[Callable[[], None], ...] = (
            self.first,
            self.types,
            self.cuts,
            self.moves,
            self.examples,
            self.secrets,
            self.links,
            self.hostile_links,
        )
        for step in steps:
            step()
        self.drops(image)
