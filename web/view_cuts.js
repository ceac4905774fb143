// The cuts of the command under the cursor: their picture, and what the chosen one did.

import { $, element, square } from "./dom.js";
import { ACTIONS, colours, maskText, rowName, sweepGrid } from "./draw.js";
import { OTHER, TAKEN, sweep } from "./sweep.js";
import { count } from "./templates.js";

const MOST_WRITES = 60; // of a command whose cuts are tried without being asked
const TELLING = 500; // milliseconds between two words of how far it is: a screen reader says each of them
const HINT = "Each column is one write to memory, each row says which words of it were new when power failed. ";

// Shows the line's cuts; `cutAt` is called with the write and the mask of a cell that is chosen.
export function showCuts(state, cutAt) {
  const mine = ++state.sweep, { asked, writes } = state.plain ?? {}, row = state.run.rows[state.at];
  const isCut = asked?.order === "apdu" && writes?.length > 0;
  const name = row?.why?.split(":")[0].split(",")[0] || "this line";
  $("cut-name").textContent = asked?.order === "apdu" ? name : "a command";
  $("line-now").textContent = asked ? `The command is line ${state.at + 1} of the script.` : "";
  $("touched").replaceChildren(HINT, element("b", {}, "Choose a cell to cut there."));
  for (const it of ["grid", "legend"]) $(it).replaceChildren();
  $("uncut").hidden = state.cut < 0;
  $("all").hidden = !isCut || writes.length <= MOST_WRITES;
  $("all").onclick = () => tryAll(state, ++state.sweep, cutAt);
  if (!asked || asked.order !== "apdu") $("tally").textContent = "Put the cursor on a line with an apdu.";
  else if (!isCut) $("tally").textContent = "This command writes nothing: there is nothing to cut.";
  else $("tally").textContent = `${count(writes.length, "memory write")}.`;
  if (isCut && writes.length <= MOST_WRITES) tryAll(state, mine, cutAt);
}

// Tries every cut in slices, and draws the picture.
async function tryAll(state, mine, cutAt) {
  const { before, asked, writes } = state.plain, began = performance.now();
  let told = began;
  const pause = async (done) => {
    if (performance.now() - told > TELLING) {
      $("tally").textContent = `Cutting power .. write ${done} of ${writes.length}`;
      told = performance.now();
    }
    await new Promise((then) => setTimeout(then));
    return state.sweep === mine;
  };
  const orders = before.map((it) => it.asked);
  const found = await sweep(state.second, state.run.first, orders, asked, writes, pause);
  if (!found || state.sweep !== mine) return;
  state.found = found;
  state.took = performance.now() - began;
  showTally(found, state.took);
  const touch = (cell, said) => tellCell(state, cell, said);
  $("grid").replaceChildren(sweepGrid(found, $("grid").clientWidth, state.chosen, cutAt, touch));
  showLegend(found);
  if (state.chosen) tellCut(state);
}

// What all runs found, in a sentence.
function verdict(found) {
  const cards = found.outcomes.map((it) => it.card);
  if (cards.includes(OTHER)) return element("b", { className: "new" }, "A CARD WAS FOUND THAT NO STAGE HAS.");
  if (cards.length === 1) return "The card is always found the same.";
  const also = cards.includes(TAKEN);
  return also ? "The card is found old, new, or with a try taken: never anything else." :
    "The card is found old or new, and never anything between.";
}

function showTally(found, took) {
  const many = `${count(found.runs, "way")} to lose power tried here in ${(took / 1000).toFixed(2)} s. `;
  $("tally").replaceChildren(element("b", {}, many), verdict(found));
}

function showLegend(found) {
  const of = colours(found), mark = element("span", { className: "new" }, "▼ ");
  const outcomes = found.outcomes.map(({ it, runs, card }) =>
    element("li", {}, square(of.get(it)), `${card}: ${count(runs, "run")}`));
  const turns = found.turns.length ? [element("li", {}, mark, `the commit: write ${found.turns.join(", ")}`)] : [];
  $("legend").replaceChildren(...outcomes, ...turns);
}

function tellCell(state, cell, said) {
  const write = state.plain.writes[cell.write - 1];
  $("touched").textContent = `Write ${cell.write} ${ACTIONS[write.kind]}. ${said[0].toUpperCase()}${said.slice(1)}.`;
}

// What the chosen cut did: a sentence for each step.
function tellCut(state) {
  const row = state.run.rows[state.at], next = state.run.rows[state.at + 1], { number, mask } = state.chosen;
  const write = state.plain.writes[number - 1], words = write.words.length, own = mask & ((1 << words) - 1);
  const back = next?.asked?.order === "on" ? next.writes.length : 0;
  const cell = state.found.cells.find((it) => it.write === number && it.mask === own);
  const card = cell ? state.found.meaning([...cell.found.keys()][0]) : "found again";
  $("touched").replaceChildren(
    element("b", {}, `Power failed at write ${number} of ${state.plain.writes.length}`),
    ` (it ${ACTIONS[write.kind]}; ${rowName(own, words)}): the answer is “${row.printed}”. `,
    `The next power-on ${back ? `made ${count(back, "write")} to roll back` : "had nothing to roll back"}, and `,
    element("b", {}, `the card is ${card}.`),
  );
}

// The order of a script that cuts there.
export const cutOrder = ({ write, mask }) => `cut ${write} ${maskText(mask)}`;
