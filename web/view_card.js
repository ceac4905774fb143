// The card: its files with their contents, and its PINs.

import { hex } from "./card.js";
import { $, element, table } from "./dom.js";
import { GATE, PAGE, PIN_PAGE, STATES, cardOf } from "./memory.js";
import { count, ruleInWords } from "./templates.js";

const TRIES = 3;
const UNBLOCKING_TRIES = 10;

// A PIN's value as its digits, where it has only those.
const areDigits = (value) => /^(3[0-9])+(FF)*$/.test(value);
const digits = (value) => (areDigits(value) ? value.replace(/(FF)+$/, "").replace(/3(.)/g, "$1") : value);

// Shows the card that the next power-on finds in a memory, with the files of the pages that changed marked.
export function showCard(image, lit, at) {
  const card = cardOf(image), pages = new Set([...lit.keys()].map((it) => Math.floor(it / PAGE)));
  const space = `${count(card.free.length, "block")} and ${count(card.freeEntries, "entry", "entries")} free`;
  $("when").textContent = image[GATE] ? `as the next power-on finds it; ${space}` : `after line ${at + 1}; ${space}`;
  $("tree").replaceChildren(element("ul", {}, fileItem(card, card.files[0], pages)));
  showPins(card, pages);
}

// A file, with those below it.
function fileItem(card, file, pages) {
  const rule = element("span", { className: "soft small" }, ruleInWords(file.rule, file.kind));
  const it = element("li", {}, element("b", { className: "mono" }, file.id), ` ${aboutFile(file)}; `, rule);
  const body = (text) => it.append(element("span", { className: "body mono" }, text));
  if ([...file.blocks, file.number + 1].some((page) => pages.has(page))) it.firstChild.classList.add("lit");
  if (file.kind === "transparent") body(hex(file.body).replace(/(.{8})/g, "$1 "));
  if (file.records.length) body(file.records.map((its, at) => `${at + 1}: ${hex(its)}`).join("   "));
  const below = card.files.filter((its) => its.number && its.parent === file.number);
  if (below.length) it.append(element("ul", {}, ...below.map((its) => fileItem(card, its, pages))));
  return it;
}

function aboutFile(file) {
  return [
    file.number ? (file.kind === "DF" ? "DF" : `${file.kind} EF`) : "MF",
    file.kind === "transparent" && count(file.size, "byte"),
    file.length && `${file.records.length} of ${file.capacity} records of ${count(file.length, "byte")}`,
    file.short && `short identifier ${file.short}`,
    file.name && `name ${file.name}`,
    STATES[file.state],
  ].filter((it) => it).join(", ");
}

// The eight PINs; their values where they may be shown.
function showPins(card, pages) {
  const hasValues = $("secrets").checked;
  const rows = card.pins.map((it) => [
    `PIN ${it.number}`, [`${it.tries} of ${TRIES}`, it.tries < TRIES ? "new" : ""],
    [`${it.unblocking} of ${UNBLOCKING_TRIES}`, it.unblocking < UNBLOCKING_TRIES ? "new" : ""],
    it.enabled ? "enabled" : "disabled", ...(hasValues ? [[digits(it.value), "mono"], [digits(it.puk), "mono"]] : []),
  ]);
  const isChanged = card.pins.some((it) => it.tries < TRIES || it.unblocking < UNBLOCKING_TRIES || !it.enabled ||
    pages.has(PIN_PAGE - 1 + it.number));
  const head = ["PIN", "tries", "unblocking tries", "state", ...(hasValues ? ["value", "unblocking value"] : [])];
  $("pins-title").textContent = `Eight PINs${card.terminated ? "; the card is terminated" : ""}`;
  if (isChanged) $("pin-list").open = true;
  $("pins").replaceChildren(table(head, rows));
}
