// The page: a script's run, the cuts of the command under the cursor, the memory and the card.

import { Card, hex } from "./card.js";
import { MODULE, SUMS, WORDS } from "./data.js";
import { $, element, table } from "./dom.js";
import { readOtherWords } from "./fault.js";
import { readFile, saveFile } from "./files.js";
import { NAMES } from "./names.js";
import { parts } from "./parts.js";
import { gunzip, pack, unbase64, unpack } from "./share.js";
import { State, firstCommand, isCommand, withCut, withoutCut } from "./state.js";
import { count } from "./templates.js";
import { showCard } from "./view_card.js";
import { cutOrder, showCuts } from "./view_cuts.js";
import { MemoryView } from "./view_memory.js";
import {
  lineOfCursor, pasteDigits, placeCursor, replaceName, showAnswers, showLine, showSame,
} from "./view_script.js";
import { readTables } from "./words.js";

const TYPING = 120; // milliseconds without a key after which a script runs
const FACTORY = "The script begins with the factory card. You can drop the file of another one here.";
const PROVED = "This module is compiled from sources that were proved; the compiler is trusted.";
const UNPROVED = "This module is not the one that the repository stores a sum of: nothing is said of its proof.";
const NO_SUM = "This browser makes no sum of a page without https: nothing is said of the module’s proof.";
const NO_BROWSER = "This browser can’t run the card. It needs WebAssembly with SIMD and DecompressionStream " +
  "(Chrome or Edge 103, Firefox 113, Safari 16.4, or later).";

let state = null;
let memory = null;
let examples = [];

// Shows what went wrong, or nothing.
function trouble(text = "") {
  $("trouble").textContent = text;
  $("trouble").hidden = !text;
}

// ---- the script

function rerun() {
  $("shared").textContent = "";
  state.same = state.take($("text").value);
  showAnswers(state, moveTo);
  showSame(state, state.same);
  select(state.at);
}

function select(at) {
  state.choose(Math.min(at, Math.max(0, state.lines.length - 1)));
  showLine(state);
  memory.show();
  showCuts(state, cutAt);
}

function moveTo(at) {
  placeCursor(at);
  select(at);
}

function setScript(script, at) {
  $("text").value = script;
  state.at = at ?? firstCommand($("text").value);
  placeCursor(state.at);
  rerun();
}

function cutAt(cell) {
  const cut = withCut(state, $("text").value, cutOrder(cell));
  setScript(cut.script, cut.at);
}

// Alt+Up and Alt+Down go from command to command.
function goByKeys(event) {
  if (!event.altKey || !["ArrowUp", "ArrowDown"].includes(event.key)) return;
  event.preventDefault();
  const isUp = event.key === "ArrowUp";
  const next = isUp ? state.lines.findLastIndex((it, at) => at < state.at && isCommand(it)) :
    state.lines.findIndex((it, at) => at > state.at && isCommand(it));
  if (next >= 0) moveTo(next);
}

function connectScript() {
  const text = $("text");
  let typed = 0;
  text.addEventListener("input", (event) => {
    if (event.inputType === "insertLineBreak") replaceName();
    clearTimeout(typed);
    typed = setTimeout(() => {
      state.at = lineOfCursor();
      rerun();
    }, TYPING);
  });
  for (const it of ["click", "keyup"]) {
    text.addEventListener(it, () => lineOfCursor() !== state.at && text.value && select(lineOfCursor()));
  }
  text.addEventListener("paste", pasteDigits);
  text.addEventListener("keydown", goByKeys);
  $("uncut").addEventListener("click", () => {
    const { script, at } = withoutCut(state, text.value);
    setScript(script, at);
  });
  $("example").append(...examples.map(({ name, about }, at) =>
    element("option", { value: at }, `${name.replaceAll("_", " ")}: ${about}`)));
  $("example").addEventListener("change", () => setScript(examples[$("example").value].script));
  $("names").append(table(["name", "its words", "command"], Object.entries(NAMES).map(([name, [usage, about]]) =>
    [[name, "mono"], usage, about])));
}

// ---- links

async function share() {
  try {
    const link = `#${await pack($("text").value)}&l=${state.at + 1}`;
    history.replaceState(null, "", link);
    const isCopied = await navigator.clipboard?.writeText(location.href).then(() => true, () => false);
    const copied = isCopied ? "copied; " : "";
    $("shared").textContent = `${copied}the address bar holds the link, with the whole script in it`;
  } catch (why) {
    $("shared").textContent = `no link: ${why.message}`;
  }
}

// Takes the script of the address; whether it has one.
async function takeLink() {
  try {
    const it = await unpack(location.hash.slice(1));
    if (it) setScript(it.script, it.line);
    return it !== null;
  } catch (why) {
    const said = why instanceof RangeError ? why.message : "it is damaged";
    trouble(`The link’s script wasn’t opened: ${said}. An example is shown instead.`);
    return false;
  }
}

// ---- files

async function open(file) {
  trouble();
  try {
    const { script, words } = await readFile(file, new Card(state.module));
    if (script !== undefined) return setScript(script);
    begin({ words, name: file.name });
  } catch (why) {
    trouble(why.message);
  }
}

// Begins the script with another card; null is the factory card.
function begin(opened) {
  state.opened = opened;
  $("factory").hidden = !opened;
  const of = opened && `the card of ${opened.name}, ${count(opened.words.length / 16, "page")}`;
  $("opened").textContent = opened ? `The script begins with ${of}. A link doesn’t hold it.` : FACTORY;
  rerun();
}

function connectFiles() {
  $("open").addEventListener("change", () => {
    if ($("open").files.length) open($("open").files[0]);
    $("open").value = "";
  });
  $("save").addEventListener("click", () => saveFile(memory.image, "soffitfennel.card"));
  $("factory").addEventListener("click", () => begin(null));
  $("secrets").addEventListener("change", () => memory.step());
  const drops = (event) => event.dataTransfer?.types.includes("Files");
  for (const name of ["dragover", "dragleave", "drop"]) {
    document.addEventListener(name, (event) => {
      if (!drops(event)) return;
      event.preventDefault();
      document.body.classList.toggle("dropping", name === "dragover");
      if (name === "drop") open(event.dataTransfer.files[0]);
    });
  }
}

// ---- the start

// The module, with its sum compared with the one that the build stored.
async function load() {
  const bytes = await gunzip(unbase64(MODULE)), sum = await crypto.subtle?.digest("SHA-256", bytes);
  const digits = sum && hex(new Uint8Array(sum)).toLowerCase();
  const isStored = digits === SUMS.module;
  $("standing").textContent = !digits ? NO_SUM : SUMS.isProved && isStored ? PROVED : UNPROVED;
  const check = isStored ? "made here, and the same" : digits ? "MADE HERE, AND ANOTHER ONE" : "not made: no https";
  $("sums").append(table(["what", "sum"], [
    [`module, ${count(bytes.length, "byte")} (${check})`, [digits ?? SUMS.module, "mono"]],
    ["sources below it", [SUMS.sources, "mono"]], ["toolchain and logic", [SUMS.kit, "mono"]],
    ["commit", [SUMS.commit, "mono"]],
  ]));
  return WebAssembly.compile(bytes);
}

async function start() {
  try {
    const said = JSON.parse(new TextDecoder().decode(await gunzip(unbase64(WORDS))));
    const module = await load(), tables = { ...readTables(said.card, said.why), orders: readOtherWords(said.orders) };
    examples = said.examples;
    state = new State(module, new Card(module), new Card(module), tables);
  } catch (why) {
    $("tally").textContent = "";
    return trouble(`${NO_BROWSER} ${why.message}`);
  }
  memory = new MemoryView(state, cutAt, (image, lit) => showCard(image, lit, state.at));
  connectScript();
  connectFiles();
  $("share").addEventListener("click", share);
  window.addEventListener("hashchange", takeLink);
  if (!(await takeLink())) setScript(examples[0].script);
  window.soffitfennel = { state, parts, examples, memory, ready: performance.now() };
}

start();
