// What the page shows: a script, its run, the command under the cursor, and the card that it begins with.

import { bench } from "./bench.js";
import { fault } from "./fault.js";
import { cardOf } from "./memory.js";
import { run } from "./run.js";
import { latin, lines } from "./script.js";
import { Log } from "./words.js";

export class State {
  // `tables` are those of words.js, with the orders of other programs; the cards have a module's instance each.
  constructor(module, card, second, tables) {
    Object.assign(this, { module, card, second, tables });
    Object.assign(this, { lines: [], at: 0, run: null, plain: null, chosen: null });
    Object.assign(this, { sweep: 0, found: null, opened: null });
  }

  // Runs a script. Returns whether the bench in the module prints the same; null where it can't run from that card.
  take(script) {
    const bytes = new TextEncoder().encode(script);
    this.lines = lines(latin(bytes));
    this.run = run(this.card, this.lines, this.opened?.words);
    this.explain();
    return this.opened ? null : this.isSame(bench(this.module, bytes));
  }

  // The lines that the script prints, as the page's own reader runs it.
  get printed() {
    return this.run.rows.filter((it) => it.asked && it.printed !== null).map((it) => it.printed);
  }

  isSame({ output, status }) {
    const last = this.run.rows.at(-1), isBad = last && last.asked === undefined;
    return output === this.printed.map((it) => `${it}\n`).join("") && status === (isBad ? 2 : 0);
  }

  // Puts words to each answer, by the card before it.
  explain() {
    const log = new Log(this.tables), image = this.run.first.slice();
    let card = cardOf(image);
    for (const row of this.run.rows) {
      if (row.asked === undefined) row.why = fault(row.text, this.tables.orders) ?? "";
      else row.why = row.printed === null ? "" : log.printed(row.asked, row.printed, card);
      for (const it of row.writes) image.set(it.words, it.address);
      if (row.writes.length) card = cardOf(image);
    }
  }

  // Chooses a line: its command runs once more without a cut, so that its writes are known.
  choose(at) {
    this.at = at;
    this.found = null;
    this.cut = this.pendingCut(at);
    const asked = this.lines[at]?.asked, row = this.run.rows[at], cut = this.lines[this.cut]?.asked;
    const before = this.lines.slice(0, at).filter((_, line) => line !== this.cut);
    const rows = asked && row ? run(this.card, [...before, this.lines[at]], this.opened?.words).rows : null;
    this.plain = rows && { before, asked, writes: rows.at(-1).writes };
    this.chosen = cut && row?.printed === "dark" ? { number: cut.number, mask: cut.mask } : null;
  }

  // Which line's cut is still to come where a line begins, or -1.
  pendingCut(at) {
    let found = -1;
    for (const row of this.run.rows.slice(0, at)) {
      if (row.asked?.order === "cut") found = row.at;
      if (row.printed === "dark") found = -1;
    }
    return found;
  }

  // The writes of a line and, behind a cut, those of the power-on that follows.
  shownWrites() {
    const row = this.run.rows[this.at], next = this.run.rows[this.at + 1];
    if (!row) return [];
    const recovery = row.printed === "dark" && next?.asked?.order === "on" ? next.writes : [];
    return [...row.writes, ...recovery.map((it) => ({ ...it, recovers: true }))];
  }
}

export const isCommand = (line) => line?.asked?.order === "apdu" || line?.asked?.order === "block";

// The line below "# command", else the last command.
export function firstCommand(script) {
  const all = lines(script), marked = all.findIndex((it) => it.text === "# command");
  const from = all.findIndex((it, at) => at > marked && isCommand(it));
  return marked >= 0 && from >= 0 ? from : Math.max(0, all.findLastIndex(isCommand));
}

// A script with a power cut before the command of a line, and a power-on after it. Returns it and the command's line.
export function withCut(state, script, order) {
  const all = script.split("\n");
  let { at } = state;
  if (state.cut >= 0) all[state.cut] = order;
  else all.splice(at++, 0, order);
  if (all[at + 1] !== "on") all.splice(at + 1, 0, "on");
  return { script: all.join("\n"), at };
}

// A script without the cut that the chosen line meets, and the command's line.
export function withoutCut(state, script) {
  const all = script.split("\n");
  all.splice(state.cut, 1);
  return { script: all.join("\n"), at: state.at - 1 };
}
