// Templates of CREATE FILE and SELECT (docs/CARD.md), in the words of tools/soffitfennel_tools/explaining/templates.py.

import { hex } from "./card.js";
import { STATES } from "./memory.js";

const KINDS = {
  0x38: "DF", 0x78: "DF", 0x01: "transparent", 0x41: "transparent", 0x02: "linear", 0x42: "linear", 0x06: "cyclic",
  0x46: "cyclic",
};
const CREATED = [1, 3, 5, 7, 4, 6];
const OF_DF = ["delete", "terminate", "activate", "deactivate", "create DF", "create EF", "delete child"];
const OF_EF = ["delete", "terminate", "activate", "deactivate", "append", "update", "read"];
const LENGTHS = { 0x83: [2, 2], 0x84: [1, 16], 0x88: [0, 1], 0x80: [2, 4], 0x8a: [1, 1], 0x8c: [1, 8] };
const WITHOUT_EFFECT = [0x81, 0xa5, 0xc6], MOST_BYTES = 32767;

export const thousands = (it) => it.toLocaleString("en");
export const count = (many, what, more = `${what}s`) => `${thousands(many)} ${many === 1 ? what : more}`;
export const follow = (many, what) => `${count(many, what)} follow${many === 1 ? "s" : ""}`;
const byte = (it) => it.toString(16).padStart(2, "0").toUpperCase();
const number = (bytes) => bytes.reduce((sum, it) => 256 * sum + it, 0);
const listed = (names) => (names.length === 1 ? names[0] : `${names.slice(0, -1).join(", ")} and ${names.at(-1)}`);
const bits = (it) => it.toString(2).replaceAll("0", "").length;
export const action = (kind, bit) => (kind === "DF" ? OF_DF : OF_EF)[7 - bit];

// A condition byte in words.
function condition(it) {
  if (it === 0x00 || it === 0xff) return it ? "never" : "always";
  const isKnown = [1, 9].includes(it >> 4) && (it & 0xf) >= 1 && (it & 0xf) <= 8;
  return isKnown ? `asks for PIN ${it & 0xf}` : `${byte(it)}, which is not a condition`;
}

// The condition of a bit of a rule, 7 to 1, in words.
export function allows(rule, bit) {
  if (!((rule[0] >> (bit - 1)) & 1)) return "never";
  const place = 1 + bits((rule[0] & 0x7f) >> bit);
  return place < rule.length ? condition(rule[place]) : "";
}

// A rule in words.
export function ruleInWords(rule, kind) {
  const of = new Map();
  for (let bit = 1; bit <= 7; bit++) {
    const words = allows(rule, bit);
    of.set(words, [...(of.get(words) ?? []), action(kind, bit)]);
  }
  of.delete("never");
  return of.size ? [...of].map(([words, names]) => `${listed(names)} ${words}`).join(", ") : "nothing is ever allowed";
}

// A template's objects, the first one of each tag.
export class Template {
  constructor(text) {
    this.all = [];
    for (let rest = text.subarray(2); rest.length >= 2 + (rest[1] ?? 0); rest = rest.subarray(2 + rest[1])) {
      this.all.push([rest[0], rest.subarray(2, 2 + rest[1])]);
    }
    this.objects = new Map([...this.all].reverse());
    const of82 = this.objects.get(0x82) ?? [];
    this.kind = KINDS[of82[0]] ?? "";
    this.id = hex(this.objects.get(0x83) ?? []);
    this.short = this.objects.has(0x88) ? number(this.objects.get(0x88)) >> 3 : null;
    this.name = hex(this.objects.get(0x84) ?? []);
    this.size = number(this.objects.get(0x80) ?? []);
    this.state = this.objects.has(0x8a) ? number(this.objects.get(0x8a)) : 5;
    this.length = number(of82.slice(2, 4));
    this.capacity = this.length ? Math.floor(this.size / this.length) : 0;
    this.records = of82.length === 5 ? of82[4] : this.capacity;
    this.rule = this.objects.get(0x8c) ?? new Uint8Array(1);
  }

  inWords() {
    const parts = [this.kind === "DF" ? "DF" : `${this.kind} EF`];
    if (this.kind === "transparent") parts.push(count(this.size, "byte"));
    if (this.kind === "linear" || this.kind === "cyclic") {
      parts.push(`${this.records} of ${this.capacity} records of ${count(this.length, "byte")}`);
    }
    if (this.short !== null && this.kind !== "DF") {
      parts.push(this.short ? `short identifier ${this.short}` : "no short identifier");
    }
    if (this.name) parts.push(`name ${this.name}`);
    parts.push(STATES[this.state] ?? `state ${byte(this.state)}`);
    return `${parts.join(", ")}; rule: ${ruleInWords(this.rule, this.kind)}`;
  }
}

// The first fault of a template for CREATE FILE, in words; null where it has none.
export function templateFault(text) {
  const found = shape(text);
  if (found) return found;
  const it = new Template(text);
  const ofObjects = () => it.all.map(([tag, value]) => ofObject(it, tag, value)).find((said) => said);
  return missing(it) ?? twice(it) ?? ofObjects() ?? null;
}

function shape(text) {
  if (text[0] !== 0x62) return `a template begins with tag 62, and this one with ${hex(text.subarray(0, 1))}`;
  if (text.length < 2 || text[1] > 0x7f) return "the length of tag 62 is a byte from 00 to 7F";
  if (text[1] !== text.length - 2) return `tag 62 has length ${byte(text[1])}, and ${follow(text.length - 2, "byte")}`;
  for (let rest = text.subarray(2); rest.length; rest = rest.subarray(2 + rest[1])) {
    if (rest.length < 2 || rest[1] > 0x7f || rest.length < 2 + rest[1]) {
      return `tag ${byte(rest[0])} is cut short: its value doesn't fit into tag 62`;
    }
  }
  return null;
}

function missing({ all, objects }) {
  const isDf = all.some(([tag, value]) => tag === 0x82 && (value[0] === 0x38 || value[0] === 0x78));
  const wanted = [[0x82, "kind of file"], [0x83, "identifier"], [0x8c, "rule"], [0x80, "size"]];
  const it = wanted.find(([tag]) => !objects.has(tag) && !(tag === 0x80 && isDf));
  return it ? `tag ${byte(it[0])} is missing, the ${it[1]}` : null;
}

function twice({ all }) {
  const known = [0x82, ...Object.keys(LENGTHS).map(Number), ...WITHOUT_EFFECT], seen = new Set();
  for (const [tag] of all) {
    if (seen.has(tag) && known.includes(tag)) return `tag ${byte(tag)} comes twice`;
    seen.add(tag);
  }
  return null;
}

function ofObject(it, tag, value) {
  if (tag === 0x82) return descriptor(value);
  if (tag in LENGTHS) {
    const [least, most] = LENGTHS[tag];
    if (value.length >= least && value.length <= most) return byTag(it, tag, value);
    const has = least === most ? least : `${least} to ${most}`;
    return `tag ${byte(tag)} has ${count(value.length, "byte")}: it has ${has}`;
  }
  return WITHOUT_EFFECT.includes(tag) ? null : `tag ${byte(tag)} isn't known`;
}

function descriptor(value) {
  const kind = KINDS[value[0]];
  if (!kind) {
    const given = hex(value.subarray(0, 1)) || "no byte";
    return `tag 82: ${given} is not a kind of file; 78 is a DF, 41 transparent, 42 linear, 46 cyclic`;
  }
  const has = `tag 82 has ${count(value.length, "byte")}`;
  if (kind === "DF" || kind === "transparent") {
    return [1, 2].includes(value.length) ? null : `${has}: for this kind it has 1 or 2`;
  }
  if (![4, 5].includes(value.length)) return `${has}: of a record EF it has 4, or 5 with the number of records`;
  const length = number(value.slice(2, 4));
  return length >= 1 && length <= 255 ? null : `tag 82: the record length ${length} isn't 1 to 255`;
}

function byTag(it, tag, value) {
  const isDf = it.kind === "DF", given = number(value);
  if (tag === 0x83 && ["3F00", "3FFF", "FFFF"].includes(it.id)) return `tag 83: no new file has identifier ${it.id}`;
  if (tag === 0x84 && !isDf) return "tag 84: an EF has no name";
  if (tag === 0x88 && isDf) return "tag 88: a DF has no short identifier";
  if (tag === 0x88 && value.length && (given & 7 || given >> 3 < 1 || given >> 3 > 30)) {
    return `tag 88: ${byte(given)} is not a short identifier 1 to 30 in bits 8 to 4 with bits 3 to 1 clear`;
  }
  if (tag === 0x8a && !CREATED.includes(given)) {
    return `tag 8A: ${byte(given)} is not a state of a new file; 05 is activated`;
  }
  if (tag === 0x80 && !isDf) return sizeFault(it, given);
  return tag === 0x8c ? ruleFault(value) : null;
}

function sizeFault(it, size) {
  if (size < 1 || size > MOST_BYTES) return `tag 80: the size ${thousands(size)} isn't 1 to ${thousands(MOST_BYTES)}`;
  if (it.kind === "transparent" || !it.length) return null;
  if (size % it.length) return `tag 80: the size ${size} is not a multiple of the record length ${it.length}`;
  if (size / it.length > 254) return `tag 80: ${size / it.length} records are more than 254`;
  return it.records > it.capacity ? `tag 82: ${it.records} records don't fit: the size holds ${it.capacity}` : null;
}

function ruleFault(rule) {
  if (rule[0] > 0x7f) return `tag 8C: bit 8 of the access mode byte ${byte(rule[0])} is set`;
  const wanted = bits(rule[0]);
  if (rule.length - 1 !== wanted) {
    return `tag 8C: ${byte(rule[0])} has ${count(wanted, "bit")} set, and ${follow(rule.length - 1, "condition")}`;
  }
  const bad = [...rule.subarray(1)].find((it) => condition(it).includes("not a condition"));
  if (bad === undefined) return null;
  return `tag 8C: ${byte(bad)} is not a condition; 00 is always, FF never, 11 to 18 PIN 1 to 8`;
}
