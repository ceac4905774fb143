// The script: the text, and beside each line what it prints, with its words.

import { $, element } from "./dom.js";
import { lineFor } from "./names.js";
import { count } from "./templates.js";

const LEAST_ROWS = 6;
const SHOWN = 80;
const MOST_OF_AN_ANSWER = 64;
const ENDS = [40, 20];

const ends = (text) => `${text.slice(0, ENDS[0])}..${text.slice(-ENDS[1])}`;
const short = (text) => (text.length > MOST_OF_AN_ANSWER ? ends(text) : text);

// A line's answer.
function answer(line, row) {
  const it = element("li", {}, element("span", { className: "order" }, line.text.slice(0, SHOWN)));
  if (!row) it.append(element("span", { className: "why" }, "not run"));
  else if (row.printed !== null) {
    const kind = row.asked === undefined ? "bad" : row.printed === "dark" ? "dark" : "";
    const writes = row.writes.length ? ` (${count(row.writes.length, "write")})` : "";
    it.classList.add("prints");
    it.append(element("span", { className: kind }, short(row.printed)));
    it.append(element("span", { className: "why" }, `  ${row.why}${writes}`));
  }
  return it;
}

// Shows the answers; `moveTo` is called with a line that is chosen.
export function showAnswers(state, moveTo) {
  const rows = state.lines.map((line, at) => answer(line, state.run.rows[at]));
  rows.forEach((it, at) => it.addEventListener("click", () => moveTo(at)));
  $("answers").replaceChildren(...rows);
  $("text").style.height = `calc(${Math.max(LEAST_ROWS, state.lines.length + 1)} * var(--row))`;
}

// Marks the line of the cursor, and tells of it.
export function showLine(state) {
  const row = state.run.rows[state.at];
  [...$("answers").children].forEach((it, line) => it.classList.toggle("now", line === state.at));
  $("text").style.setProperty("--at", state.at);
  $("because").textContent = row?.why ? `Line ${state.at + 1}: ${row.printed}. ${row.why}.` : "";
}

// Whether the bench in the module prints the same; `same` is null where it can't run from the opened card.
export function showSame(state, same) {
  const many = count(state.printed.length, "line");
  $("checked").textContent = same === null ? "the module’s own reader runs the factory card alone: not compared" :
    same ? `the module’s own reader prints the same ${many}` : "THE MODULE’S OWN READER PRINTS SOMETHING ELSE";
  $("checked").classList.toggle("new", same === false);
}

// The line of the cursor; behind the last line feed it is the line before.
export function lineOfCursor() {
  const { value, selectionStart } = $("text"), at = value.slice(0, selectionStart).split("\n").length - 1;
  return Math.max(0, value.endsWith("\n") && selectionStart === value.length ? at - 1 : at);
}

export function placeCursor(at) {
  const before = $("text").value.split("\n").slice(0, at).join("\n").length + (at ? 1 : 0);
  $("text").setSelectionRange(before, before);
}

// Pasted lines of hexadecimal digits, as in a trace, become apdu lines.
export function pasteDigits(event) {
  const pasted = event.clipboardData.getData("text").trim().split(/\r?\n/);
  if (!pasted.every((it) => /^ *([0-9A-Fa-f]{2} ?){4,} *$/.test(it))) return;
  event.preventDefault();
  const on = $("text").value.trim() ? "" : "on\n", lines = pasted.map((it) => `apdu ${it.replaceAll(" ", "")}\n`);
  $("text").setRangeText(on + lines.join(""), $("text").selectionStart, $("text").selectionEnd, "end");
  $("text").dispatchEvent(new Event("input"));
}

// After Enter: a name of the prompt, or bare digits, on the line that ended becomes its apdu line.
export function replaceName() {
  const text = $("text"), end = text.selectionStart - 1, start = text.value.lastIndexOf("\n", end - 1) + 1;
  const said = lineFor(text.value.slice(start, end));
  if (said?.line) text.setRangeText(said.line, start, end, "end");
  if (said?.line) text.setSelectionRange(start + said.line.length + 1, start + said.line.length + 1);
}
