// Every cut of one command, as tools/sweep makes them (docs/SWEEP.md, A run), at depth 1.

import { cardOf, sameness } from "./memory.js";

export const BEFORE = "as before the command";
export const AFTER = "as after the command";
export const SAME = `${BEFORE}, and as after it`;
export const TAKEN = "with a try taken";
export const OTHER = "neither as before nor as after";
const OF_PINS = [0x20, 0x24, 0x26, 0x28, 0x2c];
const UNBLOCK = 0x2c;
const SLICE = 12; // milliseconds of work between two looks at the page

// The masks of a write: no word new, all words new, each word new alone.
export function masks(words) {
  const each = Array.from({ length: words }, (_, at) => 1 << at);
  return [...new Set([0, (1 << words) - 1, ...each])];
}

// A sweep of the command behind the prepared orders, on a card without a device, from these words on.
class Sweep {
  constructor(card, words, prepared, command) {
    Object.assign(this, { card, command, cells: [], outcomes: new Map(), runs: 0, known: new Map() });
    card.insert(words, false);
    for (const it of prepared) if (it) card.perform(it);
    this.ready = card.snapshot();
    const before = this.found(), was = cardOf(card.words());
    this.answer = card.perform(command);
    const after = this.found();
    this.stages = new Map([[before, before === after ? SAME : BEFORE]]);
    if (before !== after) this.stages.set(after, AFTER);
    const taken = this.answer === "< 9000" && oneTryLess(was, command.bytes);
    if (taken && !this.stages.has(taken)) this.stages.set(taken, TAKEN);
  }

  // Which card the memory holds. Memories of equal words hold the same card, so each is read once.
  found() {
    const words = this.card.words(), key = hash(words);
    if (!this.known.has(key)) this.known.set(key, sameness(cardOf(words)));
    return this.known.get(key);
  }

  // Cuts the command at a write, and then each write of the power-on behind it.
  cut(write, mask) {
    const { card } = this, cell = { write, mask, found: new Map() };
    card.restore(this.ready);
    card.perform({ order: "cut", number: write, mask });
    if (card.perform(this.command) !== "dark") throw new Error(`write ${write} isn't made`);
    const dark = card.snapshot();
    for (let start = 1; this.cutsStart(cell, dark, start); start++);
    this.cells.push(cell);
  }

  // Cuts a write of the power-on, with no word new and with the first one new. Whether there is such a write.
  cutsStart(cell, dark, start) {
    for (const mask of [0, 1]) {
      this.card.restore(dark);
      this.card.perform({ order: "cut", number: start, mask });
      if (this.card.perform({ order: "on" }) !== "dark") {
        if (start === 1) this.count(cell);
        return false;
      }
      this.count(cell);
    }
    return true;
  }

  // Counts a run by the card that the next power-on finds.
  count(cell) {
    if (!this.card.perform({ order: "on" }).startsWith("atr")) throw new Error("a power-on without a cut failed");
    const it = this.found();
    for (const of of [cell.found, this.outcomes]) of.set(it, (of.get(it) ?? 0) + 1);
    this.runs++;
  }

  meaning(it) {
    return this.stages.get(it) ?? OTHER;
  }

  // The writes at which the outcome turns: with no new word it differs from that with all.
  turns(writes) {
    const cell = (write, mask) => this.cells.find((it) => it.write === write && it.mask === mask);
    const keys = (write, mask) => [...cell(write, mask).found.keys()].join();
    const numbers = writes.map((_, at) => at + 1);
    return numbers.filter((it) => keys(it, 0) !== keys(it, (1 << writes[it - 1].words.length) - 1));
  }
}

// Cuts a command at each of its writes. `pause` is awaited between slices of the work, with the writes done; where it
// returns false, the sweep ends with null.
export async function sweep(card, words, prepared, command, writes, pause) {
  const it = new Sweep(card, words, prepared, command);
  let began = performance.now();
  for (const [at, write] of writes.entries()) {
    for (const mask of masks(write.words.length)) {
      it.cut(at + 1, mask);
      if (performance.now() - began > SLICE) {
        if (!(await pause(at + 1))) return null;
        began = performance.now();
      }
    }
  }
  const outcomes = [...it.outcomes].map(([found, runs]) => ({ it: found, runs, card: it.meaning(found) }));
  const { answer, cells, runs } = it;
  return { answer, writes, cells, runs, turns: it.turns(writes), outcomes, meaning: (found) => it.meaning(found) };
}

// 64 bits of a memory's words.
function hash(words) {
  let one = 0x811c9dc5, two = 0x9747b28c;
  for (let at = 0; at < words.length; at++) {
    one = Math.imul(one ^ words[at], 0x01000193);
    one ^= one >>> 15;
    two = Math.imul(two + words[at], 0x5bd1e995);
    two ^= two >>> 13;
  }
  return `${one},${two}`;
}

// The card with one try less of the secret that a PIN command shows, or nothing for another command.
function oneTryLess(card, bytes) {
  if (!bytes || bytes[0] || !OF_PINS.includes(bytes[1]) || bytes.length < 6) return null;
  const tries = bytes[1] === UNBLOCK ? "unblocking" : "tries";
  const pins = card.pins.map((it) => (it.number === bytes[3] ? { ...it, [tries]: it[tries] - 1 } : it));
  return sameness({ ...card, pins });
}
