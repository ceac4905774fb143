// The language of a script's lines (docs/SCRIPT.md, Lines). A character is a byte.

import { unhex } from "./card.js";

const MOST_BYTES = { apdu: 261, block: 300 };
const ORDER = new RegExp([
  "^(?:(?<plain>on|off|free)", "(?<sent>apdu|block) (?<digits>(?:[0-9A-Fa-f]{2})+)",
  "(?<cut>cut) (?<number>[0-9]{1,6}) (?<mask>[0-9A-Fa-f]{4})", "(?<spoilt>lose|garble) (?<block>[0-9]{1,6}))$",
].join("|"));
export const LONGEST_LINE = 1024;

// A line as an order; null for an empty line or a comment; undefined for a bad line.
export function parse(line) {
  if (line.length > LONGEST_LINE) return undefined;
  if (line === "" || line.startsWith("#")) return null;
  const it = ORDER.exec(line)?.groups;
  if (!it) return undefined;
  if (it.plain) return { order: it.plain };
  if (it.sent) {
    const bytes = unhex(it.digits);
    return bytes.length > MOST_BYTES[it.sent] ? undefined : { order: it.sent, bytes };
  }
  const number = Number(it.number ?? it.block);
  if (!number) return undefined;
  return it.cut ? { order: "cut", number, mask: parseInt(it.mask, 16) } : { order: it.spoilt, number };
}

// Bytes as text, a character for each byte.
export const latin = (bytes) => Array.from(bytes, (it) => String.fromCharCode(it)).join("");

// The lines of a script; of each its text and order. A last line without LF keeps its CR, and an empty one is none.
export function lines(script) {
  const parts = script.split("\n"), last = parts.pop();
  const found = parts.map((it) => (it.endsWith("\r") ? it.slice(0, -1) : it));
  if (last !== "") found.push(last);
  return found.map((text) => ({ text, asked: parse(text) }));
}
