// What a command asks, what its answer says, and why it was refused: the words of tools/words, by facts of the
// command's bytes, of the session, and of the card that the memory held before it. As tools/bench/explain says it.

import { hex, unhex } from "./card.js";
import { STATES } from "./memory.js";
import { Template, action, allows, count, follow, templateFault } from "./templates.js";

const BINARY = ["00B0", "00D6"], RECORD = ["00B2", "00DC"], OF_RECORDS = [...RECORD, "00E2", "00A2"];
const OF_AN_EF = [...BINARY, ...OF_RECORDS, "8032"], OF_PINS = ["0020", "0024", "0026", "0028", "002C"];
const LIFE_CYCLE = ["0044", "0004", "00E6", "00E8"], CARRIED_OUT = ["9000", "6282", "6283", "6285"];
// the bit of a rule that a command asks
const BITS = {
  "00B0": 1, "00B2": 1, "00A2": 1, "00D6": 2, "00DC": 2, "8032": 2, "00E2": 3, "00E4": 7, "00E6": 6, "00E8": 6,
  "00FE": 6, "0044": 5, "0004": 4,
};
// the control byte of a block: where R-blocks and S-blocks begin, and the bit that says that more follows
const R_BLOCK = 0x80;
const S_BLOCK = 0xc0;
const MORE = 0x20;
const R_ERRORS = { 1: ", the check byte was wrong", 2: ", something else was wrong" };
const BLOCK_BYTES = 60;
const PINS = 8; // the card's; other references are told as P2 has them
const named = (path) => (path ? ["3F00", ...path].at(-1) : null);
const byte = (it) => it.toString(16).padStart(2, "0").toUpperCase();
const steps = (digits) => digits.match(/.{1,4}/g) ?? [];

// A command's header, data and Le, and what is wrong with its form.
class Command {
  constructor(given) {
    this.given = given;
    [this.p1, this.p2] = given.length >= 4 ? [given[2], given[3]] : [0, 0];
    this.key = hex(given.subarray(0, 2));
    this.data = new Uint8Array();
    this.expected = this.lc = null;
    this.rest = 0;
    this.fault = given.length < 4 ? "header" : null;
    const body = given.subarray(4);
    if (body.length === 1) this.expected = body[0];
    else if (body.length) {
      [this.lc, this.rest] = [body[0], body.length - 1];
      if (!this.lc) this.fault = "extended";
      else if (![0, 1].includes(this.rest - this.lc)) this.fault = "mismatch";
      else {
        this.data = body.subarray(1, 1 + this.lc);
        this.expected = this.rest > this.lc ? body.at(-1) : null;
      }
    }
    this.digits = hex(this.data);
    this.short = 0;
    if (BINARY.includes(this.key) && this.p1 & 0x80) this.short = this.p1 & 0x1f;
    if (OF_RECORDS.includes(this.key)) this.short = this.p2 >> 3;
    this.offset = this.p1 & 0x80 ? this.p2 : (this.p1 << 8) | this.p2;
  }
}

// Whether a block is an I-block that carries a whole command or answer.
const isWhole = (block) => block.length > 4 && !(block[1] & (R_BLOCK | MORE)) && block[2] === block.length - 4;

// The tables of tools/words: of each kind of thing its words by its key, and of each status its rows.
export function readTables(card, why) {
  const names = {}, rows = {};
  const those = (text) => text.split("\n").filter((it) => it && !it.startsWith("#"));
  for (const line of those(card)) {
    const [kind, key] = line.split(" ", 2);
    (names[kind] ??= {})[key] = line.slice(kind.length + key.length + 2);
  }
  for (const line of those(why)) {
    const [status, commands, condition] = line.split(" ", 3);
    const words = line.slice(status.length + commands.length + condition.length + 3);
    (rows[status] ??= []).push({ commands, condition, words });
  }
  return { names, rows };
}

// The session as the answers show it, and the words for each answer. `card` is the card before the line.
export class Log {
  constructor(tables) {
    this.tables = tables;
    this.directory = [];
    this.element = null;
  }

  // The words for what a line printed.
  printed(asked, printed, card) {
    this.card = card;
    this.byPath = new Map(card.files.map((it) => [it.path.join("/"), it]));
    const [kind, ...value] = printed.split(" "), { names } = this.tables;
    if (kind === "free") return `${count(Number(value[0]), "block")} and ${value[1]} entries are free`;
    if (asked.order === "on") [this.directory, this.element] = [[], null];
    if (asked.order === "block" && kind === "<") return this.blocks(asked.bytes, unhex(value[0]));
    if (kind === "<") return this.exchange(asked.bytes, value[0]);
    const words = names.answer[kind] ?? "";
    return asked.order === "apdu" ? `${this.command(new Command(asked.bytes))}: ${words}` : words;
  }

  exchange(given, answer) {
    const it = new Command(given), status = answer.slice(-4), { names } = this.tables, asked = this.command(it);
    const because = status === "9000" ? null : this.why(it, status);
    this.follow(it, status);
    let words = this.status(status).replace(`${names.command[it.key]}: `, "");
    if (because) words = because[0] === "=" ? because.slice(1) : `${words}: ${because}`;
    if (it.key === "00A4" && answer.startsWith("62") && answer.length > 4) {
      const bytes = Uint8Array.from(answer.slice(0, -4).match(/../g), (two) => parseInt(two, 16));
      words += `; ${new Template(bytes).inWords()}`;
    }
    return `${asked}: ${words}`;
  }

  // What a command that was carried out changes for those behind it.
  follow(it, status) {
    if (CARRIED_OUT.includes(status) && !it.fault) this.carriedOut(it);
  }

  // ---- blocks of T=1

  // A block and its reply; a whole command in them is followed.
  blocks(given, reply) {
    const asked = this.block(given, (inner) => this.command(new Command(inner)));
    const words = `${asked}; the reply: ${this.block(reply, (inner) => this.response(inner))}`;
    if (isWhole(given) && isWhole(reply)) this.follow(new Command(given.slice(3, -1)), hex(reply.slice(-3, -1)));
    return words;
  }

  // A block by its kind; what a whole I-block carries is told by `inner`.
  block(given, inner) {
    if (given.length < 4 || given[2] !== given.length - 4) return "a block of a wrong length";
    if (given.reduce((sum, it) => sum ^ it)) return "a block with a wrong check byte";
    if (given[0]) return `a block with node address ${byte(given[0])}`;
    const control = given[1];
    if (control < R_BLOCK) {
      return `I-block ${(control >> 6) & 1}, ${control & MORE ? "more follows" : inner(given.slice(3, -1))}`;
    }
    if (control < S_BLOCK) return `R-block ${(control >> 4) & 1}${R_ERRORS[control & 0xf] ?? ""}`;
    const words = this.tables.names.block[byte(control)] ?? byte(control);
    return `S-block, ${words}${given.length === 5 ? ` ${given[3]}` : ""}`;
  }

  // The bytes of an answer: its status, and how many bytes stand before it.
  response(data) {
    const many = (it) => count(it, "byte");
    if (data.length < 2) return many(data.length);
    return `${data.length > 2 ? `${many(data.length - 2)}, ` : ""}${this.status(hex(data.slice(-2)))}`;
  }

  status(word) {
    const { status } = this.tables.names;
    if (word === "63C1") return "1 try is left";
    if (word.startsWith("63C")) return status["63CX"].replace("X", parseInt(word[3], 16));
    if (word.startsWith("6C")) return status["6CXX"].replace("XX", word.slice(2));
    return status[word] ?? `status ${word}`;
  }

  // ---- a command's name, file and details

  command(it) {
    const name = this.tables.names.command[it.key];
    if (it.fault === "header") return `a command of ${count(it.given.length, "byte")}`;
    if (!name) return `no known command ${hex(it.given.subarray(0, 4))}`;
    if (it.fault) return name;
    return [`${name} ${this.file(it)}`.trimEnd(), ...this.details(it)].filter((part) => part).join(", ");
  }

  file(it) {
    if (it.key === "00A4") {
      if (it.p1 === 3) return "the parent";
      if (it.p1 === 4) return `name ${it.digits}`;
      return [8, 9].includes(it.p1) ? steps(it.digits).join("/") : it.digits || "3F00";
    }
    if (it.key === "00E0") return new Template(it.data).id;
    if (OF_PINS.includes(it.key)) return `PIN ${it.p2 >= 1 && it.p2 <= PINS ? it.p2 : byte(it.p2)}`;
    if (it.key === "00FE") return "";
    if (["00E4", ...LIFE_CYCLE].includes(it.key) && it.data.length) return it.digits;
    if (it.short) return `short identifier ${it.short}`;
    return named([...OF_AN_EF, "00E8"].includes(it.key) ? this.element : this.target(it)) ?? "";
  }

  details(it) {
    if (BINARY.includes(it.key)) {
      const amount = it.data.length || it.expected;
      return [`offset ${it.offset}`, amount ? count(amount, "byte") : it.expected === 0 ? "all bytes" : "no Le"];
    }
    if (RECORD.includes(it.key)) {
      const mode = { 2: "next record", 3: "previous record" }[it.p2 & 7] ?? "current record";
      return [(it.p2 & 7) === 4 && it.p1 ? `record ${it.p1}` : mode];
    }
    if (it.key === "00E2") return [count(it.data.length, "byte")];
    if (it.key === "00A2") {
      const begin = it.p1 ? `record ${it.p1}` : "the current record";
      return [`${(it.p2 & 7) === 5 ? "backward" : "forward"} from ${begin}`, it.digits && `text ${it.digits}`];
    }
    if (it.key === "8032") return [it.digits && `by ${it.digits}`];
    if (it.key === "00E0") return [new Template(it.data).kind];
    return ["0020", "002C"].includes(it.key) && !it.data.length ? ["its tries are asked"] : [];
  }

  // ---- the session

  at(path) {
    return path ? this.byPath.get(path.join("/")) : undefined;
  }

  isDf(path) {
    return this.at(path)?.kind === "DF";
  }

  // The file that two bytes name from here.
  candidate(digits) {
    const here = this.directory, parent = here.slice(0, -1);
    if (this.at([...here, digits])) return [...here, digits];
    if (here.length && this.isDf([...parent, digits])) return [...parent, digits];
    if (here.length && digits === named(parent)) return parent;
    if (digits === named(here)) return here;
    return digits === "3F00" ? [] : null;
  }

  ofShort(short) {
    const here = this.directory.join("/"), isHere = (path) => path.length && path.slice(0, -1).join("/") === here;
    return this.card.files.find((it) => it.short === short && isHere(it.path))?.path ?? null;
  }

  target(it) {
    if (it.key === "00A4") {
      if (it.p1 === 0) return it.digits ? this.candidate(it.digits) : [];
      if (it.p1 === 3) return this.directory.length ? this.directory.slice(0, -1) : null;
      if (it.p1 === 4) return this.card.files.find((file) => file.name && file.name === it.digits)?.path ?? null;
      const whole = [...(it.p1 === 8 ? [] : this.directory), ...steps(it.digits)];
      return this.at(whole) ? whole : null;
    }
    if (OF_AN_EF.includes(it.key)) return it.short ? this.ofShort(it.short) : this.element;
    if (it.key === "00E0") return this.directory;
    if (it.key === "00FE") return [];
    if (it.data.length) return this.candidate(it.digits);
    return it.key === "00E6" ? this.directory : it.key === "00E8" ? this.element : this.element ?? this.directory;
  }

  become(path, isDf) {
    [this.directory, this.element] = isDf ? [path, null] : [path.slice(0, -1), path];
  }

  carriedOut(it) {
    if (it.key === "00E0") {
      const template = new Template(it.data);
      this.become([...this.directory, template.id], template.kind === "DF");
    } else if (it.key === "00E4") this.become(this.target(it).slice(0, -1), true);
    else if (["00A4", ...LIFE_CYCLE].includes(it.key) || (OF_AN_EF.includes(it.key) && it.short)) {
      const path = this.target(it);
      if (path) this.become(path, this.isDf(path));
    }
  }

  // ---- why a command was refused

  // The words of the first row of why.table that holds; null where there is none.
  why(it, status) {
    const key = status.startsWith("63C") ? "63C" : status.startsWith("6C") ? "6C" : status;
    const isOf = ({ commands }) => commands === "*" || commands.split(",").includes(it.key);
    const rows = (this.tables.rows[key] ?? []).filter(isOf);
    const facts = rows.length ? this.facts(it, status) : {};
    const row = rows.find((its) => isMet(its.condition, facts));
    const names = row?.words.match(/\{\w+\}/g) ?? [];
    if (!row || names.some((name) => !(name.slice(1, -1) in facts))) return null;
    return row.words.replace(/\{(\w+)\}/g, (_, name) => facts[name]);
  }

  // What holds of a command, of the session and of the card: the names that why.table has.
  facts(it, status) {
    const facts = this.ofHeader(it, status);
    if (it.fault || ["6A86", "6D00", "6E00"].includes(status)) return facts;
    const target = this.target(it);
    Object.assign(facts, this.ofSession(it));
    if (this.at(target)) Object.assign(facts, this.ofFile(it, target));
    if (it.key === "00E0") Object.assign(facts, this.ofTemplate(it));
    return facts;
  }

  ofHeader(it, status) {
    const { names } = this.tables, other = `${it.key.startsWith("00") ? "80" : "00"}${it.key.slice(2)}`;
    const name = names.command[other];
    return {
      fault: it.fault, cla: it.given[0], p1: it.p1, p2: it.p2, pin: it.p2, mode: it.p2 & 7,
      reference: names.pin?.[byte(it.p2)],
      p1_digits: byte(it.p1), p2_digits: byte(it.p2), digits: it.digits, lc: it.lc, follow: follow(it.rest, "byte"),
      sent: it.data.length, sent_bytes: count(it.data.length, "byte"), has_data: it.data.length > 0,
      has_le: it.expected !== null, le: it.expected, short: it.short, offset: it.offset,
      end: it.offset + it.data.length,
      other_class: name && `${name} belongs to class ${other.slice(0, 2)}`, tries: parseInt(status[3], 16),
      wanted_bytes: count(parseInt(status.slice(2), 16) || 256, "byte"),
    };
  }

  ofSession(it) {
    const { files, terminated } = this.card, elsewhere = files.find((file) => named(file.path) === it.digits);
    const isLonger = ({ name }) => name.startsWith(it.digits) && name !== it.digits;
    return {
      directory: named(this.directory), level: this.directory.length + 1, card_is_terminated: terminated,
      elsewhere: elsewhere ? ["3F00", ...elsewhere.path].join("/") : null, no_step: this.noStep(it),
      longer_name: files.find(isLonger)?.name ?? null,
    };
  }

  ofTemplate(it) {
    const made = new Template(it.data), shortOwner = made.short ? this.ofShort(made.short) : null;
    const { files, free, freeEntries } = this.card;
    const nameOwner = files.find((file) => made.name && file.name === made.name)?.path;
    return {
      template_fault: templateFault(it.data), new_identifier: made.id, new_short: made.short,
      short_owner: named(shortOwner), name_owner: named(nameOwner), blocks: free.length, entries: freeEntries,
      cost_words: count(made.kind === "DF" ? 0 : Math.ceil(made.size / BLOCK_BYTES), "block"),
    };
  }

  noStep(it) {
    let at = it.p1 === 8 ? [] : this.directory;
    for (const step of steps(it.digits)) {
      if (["3F00", "3FFF", "FFFF"].includes(step)) {
        return `a path has no step ${step}: it begins below the ${it.p1 === 8 ? "MF" : "current DF"}`;
      }
      if (!this.at([...at, step])) return `${named(at)} has no child ${step}`;
      at = [...at, step];
    }
    return "no file is reached";
  }

  barred(path) {
    for (let end = 0; end <= path.length; end++) {
      const file = this.at(path.slice(0, end));
      if (file && [4, 12].includes(file.state)) return `${named(file.path)} is ${STATES[file.state]}`;
    }
    return null;
  }

  ofFile(it, path) {
    const file = this.at(path), left = file.size - it.offset, hasRecords = ["linear", "cyclic"].includes(file.kind);
    const ofRecords = (value) => (hasRecords ? value : null);
    return {
      file: named(path), kind: file.kind, state: file.state, state_words: STATES[file.state],
      size: BINARY.includes(it.key) ? file.size : null, size_bytes: count(file.size, "byte"),
      wanted_words: `Le asks for ${count(it.expected ?? 0, "byte")}`,
      left_words: `${left} ${left === 1 ? "is" : "are"} left`, records: ofRecords(file.records.length),
      records_words: count(file.records.length, "record"), capacity: ofRecords(file.capacity),
      length: ofRecords(file.length), length_bytes: count(file.length ?? 0, "byte"), barred: this.barred(path),
      parent_barred: path.length ? this.barred(path.slice(0, -1)) : null, ...this.ofRule(it, file),
    };
  }

  // What the rules of a file and of its DF say of a command.
  ofRule(it, file) {
    const bit = it.key === "00E0" ? (new Template(it.data).kind === "DF" ? 3 : 2) : BITS[it.key];
    if (!bit || (OF_AN_EF.includes(it.key) && file.kind === "DF")) return {};
    const said = allows(file.rule, bit), what = action(file.kind, bit), { path } = file;
    return {
      allows: said, action: what, allows_words: `${what} ${said}`,
      parent_allows: path.length ? allows(this.at(path.slice(0, -1)).rule, 1) : null,
    };
  }
}

// Whether a condition holds: one of its alternatives, each a list of clauses.
function isMet(condition, facts) {
  const isWay = (way) => way.split("&").every((clause) => holds(clause, facts));
  return condition === "-" || condition.split("|").some(isWay);
}

function holds(clause, facts) {
  const [, negated, name, relation, other] = /^(!?)(\w+)(?:([=<>])(\w+))?$/.exec(clause), value = facts[name];
  if (!relation) return Boolean(value) !== Boolean(negated);
  let wanted = other;
  if (other in facts || typeof value === "number") wanted = /^\d/.test(other) ? Number(other) : facts[other];
  if (value === null || value === undefined || wanted === null || wanted === undefined) return false;
  return relation === "=" ? value === wanted : relation === "<" ? value < wanted : value > wanted;
}
