// The pictures: a sweep as a grid of cells, and a memory as pages.

import { BLOCK_PAGE, ENTRY_PAGE, GATE_PAGE, JOURNAL_PAGE, PAGE, PIN_PAGE, cardOf } from "./memory.js";
import { AFTER, BEFORE, SAME } from "./sweep.js";
import { count } from "./templates.js";

// The palette of Okabe and Ito, which the colour-blind can tell apart.
const CARD_COLOURS = { [BEFORE]: "#0072b2", [SAME]: "#0072b2", [AFTER]: "#e69f00" };
const OTHER_COLOURS = ["#009e73", "#cc79a7", "#d55e00", "#56b4e9", "#f0e442"];
const LETTERS = { pairs: "P", gate: "G", commit: "G", words: "W", fill: "F", alone: "1", same: "S" };
export const ACTIONS = {
  pairs: "saves old words in the journal", gate: "raises the journal’s gate", commit: "lowers the gate: the commit",
  words: "writes new words", fill: "fills a free block", alone: "writes one word alone",
  same: "writes words that are there already",
};
const GRID = "a column for each device write, a row for which of its words are new; choose where power fails";
const SVG = "http://www.w3.org/2000/svg";
const LEFT = 84;
const TOP = 44;
const ROW = 14;

export const maskText = (mask) => mask.toString(16).padStart(4, "0").toUpperCase();

export function colours(found) {
  const others = OTHER_COLOURS.values();
  return new Map(found.outcomes.map(({ it, card }) => [it, CARD_COLOURS[card] ?? others.next().value ?? "#888888"]));
}

// Which of a write's words are new.
export function rowName(mask, words) {
  if (!mask) return "no word new";
  if (mask === (1 << words) - 1) return "all words new";
  const of = Array.from({ length: words }, (_, at) => at + 1).filter((it) => (mask >> (it - 1)) & 1);
  return `word${of.length === 1 ? "" : "s"} ${of.join(", ")} new`;
}

function part(name, more, words) {
  const it = document.createElementNS(SVG, name);
  for (const [key, value] of Object.entries(more)) it.setAttribute(key, value);
  if (words !== undefined) it.textContent = words;
  return it;
}

// ---- the grid of a sweep

// The head of a grid: the letter and the number of each write, and a mark at each commit.
function gridHead(svg, found, column) {
  const label = (y, words) => svg.append(part("text", { x: LEFT - 6, y, class: "soft end" }, words));
  label(TOP - 22, "it writes");
  label(TOP - 6, "write");
  found.writes.forEach((write, at) => {
    const middle = LEFT + column * (at + 0.5), turns = found.turns.includes(at + 1);
    if (column > 12) svg.append(part("text", { x: middle, y: TOP - 22, class: "soft middle" }, LETTERS[write.kind]));
    if (column > 17 || turns || at % 5 === 4) {
      svg.append(part("text", { x: middle, y: TOP - 6, class: "middle" }, at + 1));
    }
    if (turns) svg.append(part("path", { d: `M${middle - 5} 2 h10 l-5 8 z`, class: "turn" }));
  });
}

// A cell: a button, divided by the cards that its runs found.
function gridCell(found, of, cell, place, column, chosen) {
  const name = rowName(cell.mask, found.writes[cell.write - 1].words.length);
  const told = [...cell.found].map(([it, many]) => `${found.meaning(it)} (${count(many, "run")})`).join("; ");
  const button = part("g", { role: "button", tabindex: -1, class: "cell", "data-cell": `${cell.write},${place}` });
  const label = `power fails at write ${cell.write}, ${name}: the card is found ${told}`;
  button.setAttribute("aria-label", label);
  button.setAttribute("aria-pressed", chosen?.number === cell.write && chosen?.mask === cell.mask);
  const runs = [...cell.found.values()].reduce((a, b) => a + b), y = TOP + ROW * place;
  let x = LEFT + column * (cell.write - 1);
  for (const [it, many] of [...of].map(([key]) => [key, cell.found.get(key)]).filter(([, its]) => its)) {
    const width = ((column - 1) * many) / runs;
    button.append(part("rect", { x, y, width, height: ROW - 1, fill: of.get(it) }));
    x += width;
  }
  button.append(part("title", {}, label));
  return button;
}

// The cells; the arrow keys go from cell to cell, and one of them is reached by Tab.
function walkByKeys(svg, cells, rows) {
  const first = svg.querySelector("[aria-pressed=true]") ?? cells.values().next().value;
  first?.setAttribute("tabindex", 0);
  svg.addEventListener("keydown", (event) => {
    const [write, place] = event.target.dataset.cell?.split(",").map(Number) ?? [];
    const steps = { ArrowRight: [1, 0], ArrowLeft: [-1, 0], ArrowDown: [0, 1], ArrowUp: [0, -1] };
    if (event.key === "Enter" || event.key === " ") event.target.dispatchEvent(new MouseEvent("click"));
    else if (!(event.key in steps)) return;
    else {
      const [right, down] = steps[event.key], rest = (rows.get(write + right) ?? 0) - 1;
      const next = cells.get(`${write + right},${Math.min(place + down, right ? rest : Infinity)}`);
      if (next) {
        event.target.setAttribute("tabindex", -1);
        next.setAttribute("tabindex", 0);
        next.focus();
      }
    }
    event.preventDefault();
  });
}

// The grid of a sweep, in a room so many pixels wide if it can be. A cell is a button.
export function sweepGrid(found, room, chosen, choose, touch) {
  const most = Math.max(...found.writes.map((it) => it.words.length)), of = colours(found);
  const each = Array.from({ length: most > 1 ? most : 0 }, (_, at) => `word ${at + 1} new`);
  const names = ["none new", "all new", ...each];
  const column = Math.max(9, Math.min(60, (room - LEFT - 8) / found.writes.length));
  const width = LEFT + column * found.writes.length + 8, height = TOP + ROW * names.length + 6;
  const svg = part("svg", { viewBox: `0 0 ${width} ${height}`, width, height, role: "group", class: "grid" });
  svg.setAttribute("aria-label", GRID);
  gridHead(svg, found, column);
  names.forEach((it, at) => svg.append(part("text", { x: LEFT - 6, y: TOP + ROW * at + 11, class: "end" }, it)));
  const cells = new Map(), rows = new Map();
  for (const cell of found.cells) {
    const place = rows.get(cell.write) ?? 0, button = gridCell(found, of, cell, place, column, chosen);
    rows.set(cell.write, place + 1);
    button.addEventListener("click", () => choose(cell));
    const told = () => touch(cell, button.getAttribute("aria-label"));
    for (const it of ["focus", "mouseenter"]) button.addEventListener(it, told);
    cells.set(button.dataset.cell, button);
    svg.append(button);
  }
  walkByKeys(svg, cells, rows);
  return svg;
}

// ---- the memory

const ACROSS = 32;
const SIDE = 5;
const STEP = 4 * SIDE + 1;
const LEAST_ROWS = 5;
export const AREAS = {
  header: "#777777", "file entry": "#0072b2", PIN: "#cc79a7", gate: "#d55e00", journal: "#b8860b", block: "#009e73",
  free: null,
};

function areaOf(page, owned) {
  if (page < ENTRY_PAGE) return "header";
  if (page < PIN_PAGE) return "file entry";
  if (page < GATE_PAGE) return "PIN";
  if (page < JOURNAL_PAGE) return "gate";
  if (page < BLOCK_PAGE) return "journal";
  return owned.has(page) ? "block" : "free";
}

const corner = (page) => [(page % ACROSS) * STEP, Math.floor(page / ACROSS) * STEP];

// Sizes the canvas for so many pages; its pen.
function penOf(canvas, pages) {
  const scale = window.devicePixelRatio || 1;
  canvas.width = ACROSS * STEP * scale;
  canvas.height = Math.ceil(pages / ACROSS) * STEP * scale;
  const pen = canvas.getContext("2d");
  pen.scale(scale, scale);
  return pen;
}

function drawPage(pen, words, page, colour, soft, paper) {
  const [x, y] = corner(page);
  for (let at = 0; at < PAGE; at++) {
    const it = words[PAGE * page + at];
    pen.globalAlpha = it ? 1 : 0.35;
    pen.fillStyle = it || colour !== soft ? colour : paper;
    pen.fillRect(x + (at % 4) * SIDE, y + (at >> 2) * SIDE, SIDE, SIDE);
  }
  pen.globalAlpha = 1;
}

// Draws a memory, as far as it is used: a page is a square of 16 words. The words in `lit` have a colour of their own,
// and the one at `cursor` a frame. Returns how many pages are left out.
export function drawMemory(canvas, words, lit, cursor) {
  const owned = new Set(cardOf(words).files.flatMap((it) => it.blocks)), all = words.length / PAGE;
  const last = Math.max(...owned, ...[...lit.keys()].map((it) => it / PAGE), cursor === null ? 0 : cursor / PAGE);
  const pages = Math.min(all, ACROSS * Math.max(LEAST_ROWS, Math.floor(last / ACROSS) + 1));
  const pen = penOf(canvas, pages), style = getComputedStyle(canvas);
  const [paper, soft, ink] = ["--unused", "--free", "--ink"].map((it) => style.getPropertyValue(it));
  for (let page = 0; page < pages; page++) {
    drawPage(pen, words, page, AREAS[areaOf(page, owned)] ?? soft, soft, paper);
  }
  for (const [address, colour] of lit) {
    const [x, y] = corner(Math.floor(address / PAGE)), at = address % PAGE;
    pen.fillStyle = colour;
    pen.fillRect(x + (at % 4) * SIDE - 1, y + (at >> 2) * SIDE - 1, SIDE + 2, SIDE + 2);
  }
  if (cursor !== null) {
    const [x, y] = corner(Math.floor(cursor / PAGE)), at = cursor % PAGE;
    pen.strokeStyle = ink;
    pen.strokeRect(x + (at % 4) * SIDE - 0.5, y + (at >> 2) * SIDE - 0.5, SIDE + 1, SIDE + 1);
  }
  return all - pages;
}

// The address of the word at a point of the canvas as it is shown.
export function addressAt(canvas, event) {
  const box = canvas.getBoundingClientRect(), shown = box.width / (ACROSS * STEP);
  const x = (event.clientX - box.left) / shown, y = (event.clientY - box.top) / shown;
  const page = Math.floor(y / STEP) * ACROSS + Math.floor(x / STEP);
  const within = (it) => Math.min(3, Math.floor((it % STEP) / SIDE));
  return PAGE * page + within(y) * 4 + within(x);
}
