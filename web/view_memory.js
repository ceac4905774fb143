// The memory as pages with changed words lit, the words of a write, and the journal.

import { $, element, square, table } from "./dom.js";
import { ACTIONS, AREAS, addressAt, drawMemory } from "./draw.js";
import { GATE, PAGE, isSecret, pairsOf, place, undone, word } from "./memory.js";
import { memoryAt } from "./run.js";
import { count } from "./templates.js";

const NOW = "#ff2d2d";
const WRITTEN = "#ffb000";
const RECOVERED = "#56b4e9";
const HIDDEN = "••••••••";
const STEPS = {
  ArrowRight: 1, ArrowLeft: -1, ArrowDown: PAGE / 4, ArrowUp: -PAGE / 4, PageDown: PAGE, PageUp: -PAGE,
};
const PLAYED = 6000; // milliseconds that all steps take at most, and those of one
const SLOWEST = 450;
const FASTEST = 80;

const isHidden = (words, address) => isSecret(words, address) && !$("secrets").checked;
const shownWord = (words, address, value) => (isHidden(words, address) ? HIDDEN : word(value));

export class MemoryView {
  // `cutAt` is called with a write and a mask, `shown` with each memory that is shown.
  constructor(state, cutAt, shown) {
    Object.assign(this, { state, cutAt, shown, cursor: null, timer: 0, writes: [], first: null, image: null });
    $("areas").append(
      ...Object.entries({ ...AREAS, free: "var(--free)", "written now": NOW, "rolled back": RECOVERED })
        .map(([name, colour]) => element("li", {}, square(colour), name)),
    );
    $("step").addEventListener("input", () => this.step());
    $("play").addEventListener("click", () => this.play());
    $("pages").addEventListener("mousemove", (event) => this.point(addressAt($("pages"), event)));
    $("pages").addEventListener("keydown", (event) => this.walk(event));
    matchMedia("(prefers-color-scheme: dark)").addEventListener("change", () => this.step());
  }

  // Shows the writes of the chosen line, and the memory after the last one.
  show() {
    const { state } = this;
    this.writes = state.shownWrites();
    this.first = memoryAt(state.run, state.at);
    this.cursor = null;
    clearInterval(this.timer);
    $("step").max = this.writes.length;
    $("step").value = this.writes.length;
    for (const it of ["step", "play"]) $(it).disabled = !this.writes.length;
    this.step();
  }

  // Shows the memory after the write that the slider stands at.
  step() {
    const now = Number($("step").value), image = this.first.slice(), lit = new Map();
    for (const [at, it] of this.writes.slice(0, now).entries()) {
      image.set(it.words, it.address);
      const colour = at === now - 1 ? NOW : it.recovers ? RECOVERED : WRITTEN;
      it.words.forEach((_, of) => lit.set(it.address + of, colour));
    }
    Object.assign(this, { image, lit, now });
    this.draw();
    $("step-now").textContent = this.told(now);
    this.showWords(this.writes[now - 1], now);
    this.showJournal();
    this.shown(image, lit);
  }

  draw() {
    const hidden = drawMemory($("pages"), this.image, this.lit, this.cursor);
    if (this.cursor === null) $("pointed").textContent = `${count(hidden, "free page")} behind these aren’t drawn.`;
  }

  // What the slider's write does.
  told(now) {
    const it = this.writes[now - 1], own = this.writes.filter((its) => !its.recovers).length, all = this.writes.length;
    if (!it) return all ? "0: before the line" : "this line writes nothing";
    if (it.recovers) {
      const does = it.kind === "commit" ? "lowers the gate" : "an old word goes back";
      return `power-on, write ${now - own} of ${all - own}: ${does}`;
    }
    const { plain, chosen } = this.state, of = plain?.writes.length ?? own, fails = chosen && now === own;
    // (a torn write is told as the whole one)
    const does = ACTIONS[plain?.writes[now - 1]?.kind ?? it.kind];
    return `write ${now} of ${of}: ${does}${fails ? ", and power fails" : ""}`;
  }

  // The words of a write, old and new. A command's own write has a box for each, and a button that cuts there.
  showWords(it, number) {
    const whole = it && !it.recovers ? this.state.plain?.writes[number - 1] : null;
    $("cut").hidden = !whole;
    $("changed").replaceChildren(...(it ? [whole ? this.wordsToCut(it, whole, number) : this.wordsBack(it)] : []));
  }

  wordsBack(it) {
    const of = (at, value) => [shownWord(this.image, it.address + at, value), "mono"];
    const rows = it.words.map((value, at) => [place(it.address + at), of(at, it.old[at]), of(at, value)]);
    return table(["word", "old", "now"], rows);
  }

  wordsToCut(it, whole, number) {
    const { chosen } = this.state, torn = chosen?.number === number ? chosen.mask : null;
    const of = (at, value, more = "") => [shownWord(this.image, it.address + at, value), `mono${more}`];
    const boxes = it.words.map((_, at) => element("input", {
      type: "checkbox", checked: torn === null || (torn >> at) & 1, "aria-label": `word ${at + 1} is new`,
    }));
    $("cut").textContent = `Cut power at write ${number}, ticked words new`;
    const mask = () => boxes.reduce((sum, box, at) => sum | (box.checked << at), 0);
    $("cut").onclick = () => this.cutAt({ write: number, mask: mask() });
    return table(["new?", "word", "old", "new", "now"], it.words.map((value, at) => {
      const made = whole.words[at] ?? value, changes = made === it.old[at] ? "" : " new";
      return [boxes[at], place(it.address + at), of(at, it.old[at]), of(at, made, changes), of(at, value)];
    }));
  }

  // The gate, the pairs that count, and what the next power-on rolls back.
  showJournal() {
    const { image } = this, pairs = pairsOf(image), after = undone(image);
    const first = new Set(pairs.map((it) => it.address)), of = (at, it) => [shownWord(image, at, it), "mono"];
    const back = [...first].filter((it) => image[it] !== after[it]).length;
    $("gate").textContent = !image[GATE] ? "the gate is 0: nothing to roll back" :
      `the gate is ${image[GATE]}: the next power-on rolls back ${count(back, "changed word")}`;
    const rows = pairs.map(({ number, address, earlier }) => [
      String(number), place(address), of(address, earlier), of(address, image[address]),
      first.delete(address) ? (image[address] === earlier ? "the same" : "goes back") : "an earlier pair counts",
    ]);
    const head = ["pair", "word", "earlier word", "now", "power-on"];
    $("pairs").replaceChildren(...(rows.length ? [table(head, rows)] : []));
  }

  // Tells of a word; the arrow keys go from word to word, PageUp and PageDown from page to page.
  point(address) {
    if (!(address >= 0 && address < this.image.length)) return;
    const now = shownWord(this.image, address, this.image[address]);
    $("pointed").textContent = `word ${address}, page ${Math.floor(address / PAGE)}: ${place(address)}: ${now}`;
  }

  walk(event) {
    if (!(event.key in STEPS)) return;
    event.preventDefault();
    const from = this.cursor ?? [...this.lit.keys()][0] ?? 0;
    const next = this.cursor === null ? from : from + STEPS[event.key];
    this.cursor = Math.max(0, Math.min(this.image.length - 1, next));
    this.draw();
    this.point(this.cursor);
  }

  // Shows write after write.
  play() {
    clearInterval(this.timer);
    $("step").value = 0;
    this.step();
    this.timer = setInterval(() => {
      $("step").value = Number($("step").value) + 1;
      this.step();
      if (Number($("step").value) >= this.writes.length) clearInterval(this.timer);
    }, Math.max(FASTEST, Math.min(SLOWEST, PLAYED / (this.writes.length || 1))));
  }
}
