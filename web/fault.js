// Why a line is none of the language, in the words of tools/bench/bad-line.

import { lineFor } from "./names.js";
import { LONGEST_LINE } from "./script.js";

const MOST_BYTES = { apdu: 261, block: 300 };
const ORDERS = ["on", "off", "free", "apdu", "block", "cut", "lose", "garble"];
const OTHER_COMMENTS = ["//", "/*", "--", ";", "%", "!", "'"];
const BEHIND_A_COMMAND = "a comment stands behind a command: a comment is a line of its own that begins with #";
const ANSWER = /^(?:(?:<|atr [0-9A-F]+|mute|dark|lost)(?: |$)|free [0-9]+ [0-9]+$)/;
const WITH_STATUS = /^[0-9A-Fa-f]{8,} (?:9000|6[1-9A-Ea-e][0-9A-Fa-f]{2}|6[Ff]00)$/;
const NEAR = 0.75;
const UNREADABLE = 0xfffd; // what a decoder gives for bytes that are no character

const startsWithOne = (text, of) => of.some((it) => text.startsWith(it));
const isSingle = (text) => text.includes("'") && !text.includes('"');
const quoted = (text) => (isSingle(text) ? `"${text}"` : `'${text.replaceAll("'", "\\'")}'`);

// What is wrong with the spaces, if anything.
function ofSpaces(text) {
  if (/^ *#/.test(text)) return "a space stands before the #: a comment begins with it";
  if (/^ *$/.test(text)) return "it has spaces alone: an empty line has none";
  if (text.startsWith(" ")) return "a space stands before the first word";
  if (text.endsWith(" ")) return "a space stands at its end";
  return text.includes("  ") ? "two spaces stand together: words are parted by one" : null;
}

// What is wrong with the digits of an apdu or a block, if anything.
function ofBytes(order, given) {
  if (!given) return `no digits follow ${order}`;
  if (/^0[xX]/.test(given)) return "digits are written without 0x before them";
  if (WITH_STATUS.test(given)) {
    return `a status is not part of the order; in a test it stands on the line below: = < *${given.split(" ")[1]}`;
  }
  if (/^[0-9A-Fa-f]*( +[0-9A-Fa-f]*)+$/.test(given)) return "a space stands among the digits: they are one word";
  const rest = given.replace(/^[0-9A-Fa-f]*/, "");
  if (startsWithOne(rest.replace(/^ +/, ""), OTHER_COMMENTS)) return BEHIND_A_COMMAND;
  if (rest.startsWith(" ")) return "a word follows the digits: a line has one order";
  if (rest) return `${quoted(rest[0])} is not a hexadecimal digit`;
  if (given.length % 2) return `${given.length} digits are an odd number: a byte has two`;
  if (given.length / 2 <= MOST_BYTES[order]) return null;
  return `${given.length / 2} bytes are too many: ${order} takes 1 to ${MOST_BYTES[order]}`;
}

// What is wrong with a count, if anything.
function ofNumber(word) {
  if (/^[+-]/.test(word)) return "a number has no sign";
  if (!/^[0-9]+$/.test(word)) return `${quoted(word)} is not a decimal number`;
  if (word.length > 6) return `the number ${word} is out of range: it has 1 to 6 digits`;
  return Number(word) ? null : `the number ${word} is out of range: it is at least 1`;
}

// What is wrong with the words of a cut, if anything.
function ofCut(words) {
  if (words.length !== 2) return "cut takes two words: a number, and a mask of 4 hexadecimal digits";
  if (/^0[xX]/.test(words[1])) return "a mask is written without 0x before it";
  if (!/^[0-9A-Fa-f]{4}$/.test(words[1])) return `the mask ${words[1]} has not exactly 4 hexadecimal digits`;
  return ofNumber(words[0]);
}

// How alike two words are, from 0 to 1: twice the letters of their longest common parts, by the letters of both.
function likeness(one, other) {
  const common = (a, b) => {
    let best = 0, at = 0, of = 0;
    for (let i = 0; i < a.length; i++) for (let j = 0; j < b.length; j++) {
      let many = 0;
      while (i + many < a.length && a[i + many] === b[j + many]) many++;
      if (many > best) [best, at, of] = [many, i, j];
    }
    return best && common(a.slice(0, at), b.slice(0, of)) + best + common(a.slice(at + best), b.slice(of + best));
  };
  return (2 * common(one, other)) / (one.length + other.length);
}

// What a name stands for, if the line begins with one.
function ofName(text) {
  const [name] = text.split(" "), said = lineFor(`${name.toLowerCase()} ${text.slice(name.length + 1)}`);
  const of = said?.line ?? said?.why;
  return of && `${name} is a name at the prompt (./bench at a terminal); a script has its line: ${of}`;
}

// What is meant by a line that begins with none of the orders, as far as it shows.
function ofNoOrder(text, order, otherWords) {
  const low = order.toLowerCase(), sign = /^([a-z]+)([^a-z0-9_ ])/.exec(low);
  if (ANSWER.test(text)) {
    return "it is an answer, not an order; in a test it stands behind '= ' below its order (./bench --test)";
  }
  if (ORDERS.includes(low)) return `upper case: the order is ${low}`;
  if (order.startsWith("=") && order !== "=") {
    return "a space is missing behind the =: '= TEXT' says what the order above prints, in a test (./bench --test)";
  }
  if (["=", "expect", "assert"].includes(order)) {
    return "'= TEXT' below an order says what it prints, in a test; ./bench --test FILE runs tests";
  }
  if ([">", "$", "card>", "off>"].includes(order)) {
    return `${quoted(order)} is the mark of a log or a prompt; the order stands behind it`;
  }
  if (startsWithOne(order, OTHER_COMMENTS)) return "a comment begins with #";
  if (/^([0-9A-Fa-f] ?){4}/.test(text)) {
    return "no order stands before the digits: is apdu meant? (./bench --apdus FILE runs a file of such lines)";
  }
  if (sign && ORDERS.includes(sign[1])) {
    return `${quoted(sign[2])} stands behind the order ${sign[1]}: a line has one order, and its words have no signs`;
  }
  const of = ofName(text) || (otherWords[low] && `unknown order ${quoted(order)}: ${otherWords[low]}`);
  return of || `unknown order ${quoted(order)}${nearest(low)}`;
}

function nearest(order) {
  const best = ORDERS.map((it) => [likeness(it, order), it]).sort().at(-1);
  return best[0] >= NEAR ? `; is ${best[1]} meant?` : "";
}

// What is wrong with a line of printable text.
function ofWords(text, otherWords) {
  const [order, ...words] = text.split(" ");
  if (!ORDERS.includes(order) || ANSWER.test(text)) return ofNoOrder(text, order, otherWords);
  if (order in MOST_BYTES) return ofBytes(order, text.slice(order.length + 1));
  if (order === "cut") return ofCut(words);
  if (order === "lose" || order === "garble") {
    return words.length === 1 ? ofNumber(words[0]) : `${order} takes one number`;
  }
  return words.length ? `${order} takes no further words` : null;
}

// The character of a text of bytes that no order has.
function ofByte(text) {
  const at = text.search(/[^ -~]/);
  if (at < 0) return null;
  const bytes = Uint8Array.from(text.slice(at), (it) => it.charCodeAt(0));
  const sign = new TextDecoder().decode(bytes.subarray(0, 4)).codePointAt(0);
  const digits = (it, many) => it.toString(16).padStart(many, "0").toUpperCase();
  if (sign === UNREADABLE) return `it has a byte ${digits(bytes[0], 2)}, which no order has`;
  return `it has the character U+${digits(sign, 4)}, which no order has`;
}

// The orders of other programs, by the table of tools/words.
export function readOtherWords(table) {
  const rows = table.split("\n").filter((it) => it && !it.startsWith("#"));
  return Object.fromEntries(rows.map((it) => [it.slice(0, it.indexOf("  ")), it.slice(it.indexOf("  ") + 2)]));
}

// Why a line is a bad one; null where nothing shows.
export function fault(text, otherWords) {
  if (text.length > LONGEST_LINE) return `it has ${text.length} bytes: a line has at most ${LONGEST_LINE}`;
  if (text.includes("\t")) return "it has a tab: words are parted by one space";
  if (text.includes("\r")) {
    return "it has a carriage return within: one alone, right before the line feed, is dropped";
  }
  if (text.replace(/^ +/, "").slice(1).includes("#")) return BEHIND_A_COMMAND;
  return ofByte(text) ?? ofSpaces(text) ?? ofWords(text, otherWords);
}
