// Where a card's memory holds what, and the card in it (docs/MEMORY.md).

import { hex, LEAST_WORDS, MOST_WORDS } from "./card.js";

export const PAGE = 16;
export const ENTRY_PAGE = 1;
export const PIN_PAGE = 65;
export const GATE_PAGE = 73;
export const JOURNAL_PAGE = 74;
export const BLOCK_PAGE = 128;
export const GATE = PAGE * GATE_PAGE;
export const JOURNAL = PAGE * JOURNAL_PAGE;
export const BLOCKS = PAGE * BLOCK_PAGE;
export const PAIRS = 432;
export const KINDS = ["free", "DF", "transparent", "linear", "cyclic"];
export const STATES = { 1: "creation", 3: "initialisation", 4: "deactivated", 5: "activated", 12: "terminated" };
const ENTRIES = 64;
const DF = 1;
const FORMAT_1 = 0x54534331;
const BLOCK_BYTES = 60;
const HEADER_WORDS = ["mark", "first free block", "card state", "end of the blocks"];
const ENTRY_WORDS = [
  "kind, life cycle, identifier", "parent, short identifier, lengths", "rule", "rule", "name", "name", "name", "name",
  "size, record length", "first and last block", "number of records, start slot",
];
const PIN_WORDS = ["tries", "unblocking tries", "value", "value", "unblocking value", "unblocking value", "enabled"];

export const word = (it) => it.toString(16).padStart(8, "0").toUpperCase();
export const identifier = (it) => it.toString(16).padStart(4, "0").toUpperCase();

// ---- an image in a file: the words, each with its most significant byte first

export function imageOf(bytes) {
  const view = new DataView(bytes.buffer, bytes.byteOffset, bytes.length), words = bytes.length / 4;
  if (words % PAGE || words < LEAST_WORDS || words > MOST_WORDS) {
    const pages = [LEAST_WORDS, MOST_WORDS].map((it) => (it / PAGE).toLocaleString("en"));
    throw new RangeError(`it has ${bytes.length.toLocaleString("en")} bytes; ` +
      `a memory image has 64 bytes a page, and ${pages.join(" to ")} pages`);
  }
  return Uint32Array.from({ length: words }, (_, at) => view.getUint32(4 * at));
}

export function bytesOf(words, from = 0, count = words.length) {
  const view = new DataView(new ArrayBuffer(4 * count));
  for (let at = 0; at < count; at++) view.setUint32(4 * at, words[from + at]);
  return new Uint8Array(view.buffer);
}

// ---- undo

// The pairs of the journal that count.
export function pairsOf(words) {
  return Array.from({ length: Math.min(words[GATE], PAIRS) }, (_, number) =>
    ({ number, address: words[JOURNAL + 2 * number], earlier: words[JOURNAL + 2 * number + 1] }));
}

// The words after undo: of each address the earlier word of the first pair that counts.
export function undone(words) {
  const found = words.slice();
  for (const { address, earlier } of pairsOf(words).reverse()) found[address] = earlier;
  found[GATE] = 0;
  return found;
}

// ---- the card

function chain(words, first) {
  const found = [];
  for (let page = first; page && found.length < MOST_WORDS / PAGE; page = words[PAGE * page]) found.push(page);
  return found;
}

function entryOf(words, number) {
  const at = PAGE * (ENTRY_PAGE + number), head = words[at], more = words[at + 1], kind = head >>> 24;
  return {
    number, kind: KINDS[kind], state: (head >>> 16) & 0xff, id: identifier(head & 0xffff), parent: more >>> 24,
    short: (more >>> 16) & 0xff, name: hex(bytesOf(words, at + 4, 4).subarray(0, (more >>> 8) & 0xff)),
    rule: bytesOf(words, at + 2, 2).slice(0, more & 0xff), ...bodyOf(words, at, kind),
  };
}

function bodyOf(words, at, kind) {
  if (kind === DF) return { size: 0, blocks: [], body: new Uint8Array(), records: [] };
  const size = words[at + 8] >>> 16, length = words[at + 8] & 0xffff, blocks = chain(words, words[at + 9] >>> 16);
  const body = new Uint8Array(BLOCK_BYTES * blocks.length);
  blocks.forEach((page, place) => body.set(bytesOf(words, PAGE * page + 1, PAGE - 1), BLOCK_BYTES * place));
  const capacity = length ? size / length : 0, number = words[at + 10] >>> 16, start = words[at + 10] & 0xffff;
  const slots = Array.from({ length: length ? number : 0 }, (_, it) => length * ((start + it) % capacity));
  const records = slots.map((it) => body.slice(it, it + length));
  return { size, length, capacity, blocks, body: body.slice(0, size), records };
}

// The files in the order of the tree, each with its path below the MF.
function tree(entries) {
  const files = [];
  const visit = (it, path) => {
    files.push({ ...it, path, level: path.length });
    for (const child of entries) if (child.number && child.parent === it.number) visit(child, [...path, child.id]);
  };
  visit(entries[0], []);
  return files;
}

function pinOf(words, number) {
  const at = PAGE * (PIN_PAGE + number);
  return {
    number: number + 1, tries: words[at], unblocking: words[at + 1], value: hex(bytesOf(words, at + 2, 2)),
    puk: hex(bytesOf(words, at + 4, 2)), enabled: words[0] === FORMAT_1 || words[at + 6] === 1,
  };
}

// The card after undo: its files, its PINs, its free space.
export function cardOf(memory) {
  const words = undone(memory);
  const numbers = Array.from({ length: ENTRIES }, (_, number) => number);
  const used = numbers.filter((it) => words[PAGE * (ENTRY_PAGE + it)] >>> 24);
  const files = tree(used.map((it) => entryOf(words, it)));
  const pins = Array.from({ length: GATE_PAGE - PIN_PAGE }, (_, number) => pinOf(words, number));
  const free = chain(words, words[1]);
  return { files, pins, terminated: words[2] === 1, free, freeEntries: ENTRIES - files.length };
}

// All that the card is, as text: two memories have the same one if and only if they hold the same card.
export function sameness({ files, pins, terminated, free }) {
  const seen = files.map((it) => [
    it.path.join("/"), it.kind, it.state, it.short, it.name, hex(it.rule), it.size, it.capacity,
    it.records.length ? it.records.map(hex) : hex(it.kind === "transparent" ? it.body : []),
  ]);
  return JSON.stringify([seen, pins, terminated, free.length]);
}

// ---- words

// What a word is for.
export function place(address) {
  const page = Math.floor(address / PAGE), at = address % PAGE, of = (names) => names[at] ?? "not used";
  if (page === 0) return `header, ${of(HEADER_WORDS)}`;
  if (page < PIN_PAGE) return `file entry ${page - ENTRY_PAGE}, ${of(ENTRY_WORDS)}`;
  if (page < GATE_PAGE) return `PIN ${page - PIN_PAGE + 1}, ${of(PIN_WORDS)}`;
  if (page < JOURNAL_PAGE) return `journal gate${at ? ", not used" : ", number of pairs that count"}`;
  if (page < BLOCK_PAGE) return `journal pair ${(address - JOURNAL) >> 1}, ${at % 2 ? "earlier word" : "address"}`;
  return `block ${page}, ${at ? `bytes ${4 * at - 4} to ${4 * at - 1}` : "link"}`;
}

// Whether a word holds a part of a PIN or PUK: on its own page, or as an earlier word in the journal.
export function isSecret(words, address) {
  const page = Math.floor(address / PAGE), at = address % PAGE;
  if (page >= PIN_PAGE && page < GATE_PAGE) return at >= 2 && at <= 5;
  const isEarlier = page >= JOURNAL_PAGE && page < BLOCK_PAGE && at % 2 === 1;
  return isEarlier && words[address - 1] < JOURNAL && isSecret(words, words[address - 1]);
}
