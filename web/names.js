// Names for the common commands, as at the bench's prompt: "select 2FE2" is "apdu 00A4000C022FE2".

const MOST_OFFSET = 32767;
const MOST_SIZE = 32767;
const MOST_DATA = 255;
const PIN_BYTES = 8;
const PLACES = { next: "0002", previous: "0003", current: "0004" };
const OPEN_RULE = `7F${"00".repeat(7)}`;
const DESCRIPTORS = { transparent: "4121", linear: "4221", cyclic: "4621" };
const MANY = 1000;

class Unclear extends Error {}

const digits = (it, many) => it.toString(16).toUpperCase().padStart(many, "0");

function number(word, least, most) {
  if (!/^[0-9]{1,6}$/.test(word) || Number(word) < least || Number(word) > most) {
    throw new Unclear(`${word} is no number from ${least} to ${most}`);
  }
  return Number(word);
}

function identifier(word) {
  if (!/^[0-9A-Fa-f]{4}$/.test(word)) throw new Unclear(`${word} is no file identifier of four hexadecimal digits`);
  return word.toUpperCase();
}

// Bytes, with the byte that counts them.
function data(words) {
  const given = words.join("").toUpperCase();
  if (!/^([0-9A-F]{2})+$/.test(given) || given.length > 2 * MOST_DATA) {
    throw new Unclear(`the data are 1 to ${MOST_DATA} bytes, each of two hexadecimal digits`);
  }
  return digits(given.length / 2, 2) + given;
}

// The eight bytes of a PIN or a PUK: up to eight characters, filled with FF, or sixteen hexadecimal digits.
function secret(word) {
  if (/^[0-9A-Fa-f]{16}$/.test(word)) return word.toUpperCase();
  if (word.length > PIN_BYTES || /[^\0-\x7f]/.test(word)) {
    throw new Unclear(`${word} has more than ${PIN_BYTES} characters, and is not 16 hexadecimal digits`);
  }
  return Array.from(word, (it) => digits(it.charCodeAt(0), 2)).join("").padEnd(2 * PIN_BYTES, "F");
}

function select(words, answer, expected) {
  if (!words.length) return `00A400${answer}${expected}`;
  if (words.length === 1 && words[0] === "..") return `00A403${answer}${expected}`;
  if (words[0] === "name") return `00A404${answer}${data(words.slice(1))}${expected}`;
  if (words[0].includes("/")) {
    const path = words[0].split("/").filter((it) => it).map(identifier).join("");
    return `00A408${answer}${data([path])}${expected}`;
  }
  return `00A400${answer}${data([identifier(words[0])])}${expected}`;
}

function read([offset, count]) {
  const from = offset === undefined ? 0 : number(offset, 0, MOST_OFFSET);
  return `00B0${digits(from, 4)}${digits((count === undefined ? 256 : number(count, 1, 256)) % 256, 2)}`;
}

// P1 P2 for a record, by its number or from the record pointer.
const record = (word) => PLACES[word] ?? `${digits(number(word, 1, 254), 2)}04`;

function create([file, kind, ...rest]) {
  const begin = `8302${identifier(file)}`, end = `8A01058C08${OPEN_RULE}`, size = (it) => `8002${digits(it, 4)}`;
  let objects;
  if (kind === "directory") objects = `82027821${begin}${rest.length ? `84${data(rest)}` : ""}${end}`;
  else if (kind === "transparent" && rest.length === 1) {
    objects = `8202${DESCRIPTORS[kind]}${begin}${size(number(rest[0], 1, MOST_SIZE))}${end}`;
  } else if (["linear", "cyclic"].includes(kind) && rest.length === 2) {
    const length = number(rest[0], 1, 255), all = number(String(length * number(rest[1], 1, 254)), 1, MOST_SIZE);
    objects = `8204${DESCRIPTORS[kind]}${digits(length, 4)}${begin}${size(all)}${end}`;
  } else {
    throw new Unclear("the kind is transparent SIZE, linear LENGTH COUNT, cyclic LENGTH COUNT, or directory [NAME]");
  }
  return `00E00000${data([`62${digits(objects.length / 2, 2)}${objects}`])}`;
}

const named = (words) => (words.length ? data([identifier(words[0])]) : "");

function terminate([what, ...words]) {
  const of = { file: "E8", directory: "E6", card: "FE" }[what];
  if (!of || (what === "card" && words.length)) {
    throw new Unclear("what ends is file [FILE], directory [FILE], or card");
  }
  return `00${of}0000${named(words)}`;
}

const onPin = (instruction) => ([pin, ...values]) => {
  const given = values.map(secret).join("");
  return `00${instruction}00${digits(number(pin, 1, 8), 2)}${given ? data([given]) : ""}`;
};

// Of each name the words that follow it, what it does, the fewest and the most words, and its command.
export const NAMES = {
  select: ["[FILE]", "SELECT; the master file without a word", 0, 2, (it) => select(it, "0C", "")],
  info: ["[FILE]", "SELECT, with the file's template", 0, 2, (it) => select(it, "04", "00")],
  read: ["[OFFSET [COUNT]]", "READ BINARY; all bytes without a word", 0, 2, read],
  write: ["OFFSET HEX", "UPDATE BINARY", 2, MANY,
          (it) => `00D6${digits(number(it[0], 0, MOST_OFFSET), 4)}${data(it.slice(1))}`],
  record: ["RECORD", "READ RECORD", 1, 1, (it) => `00B2${record(it[0])}00`],
  update: ["RECORD HEX", "UPDATE RECORD", 2, MANY, (it) => `00DC${record(it[0])}${data(it.slice(1))}`],
  append: ["HEX", "APPEND RECORD", 1, MANY, (it) => `00E20000${data(it)}`],
  search: ["HEX", "SEARCH RECORD, from record 1 on", 1, MANY, (it) => `00A20104${data(it)}00`],
  increase: ["HEX", "INCREASE", 1, MANY, (it) => `80320000${data(it)}00`],
  create: ["FILE KIND ..", "CREATE FILE, with a rule that allows everything", 2, MANY, create],
  delete: ["[FILE]", "DELETE FILE", 0, 1, (it) => `00E40000${named(it)}`],
  activate: ["[FILE]", "ACTIVATE FILE", 0, 1, (it) => `00440000${named(it)}`],
  deactivate: ["[FILE]", "DEACTIVATE FILE", 0, 1, (it) => `00040000${named(it)}`],
  terminate: ["WHAT [FILE]", "TERMINATE EF, TERMINATE DF, TERMINATE CARD USAGE", 1, 2, terminate],
  verify: ["NUMBER PIN", "VERIFY", 2, 2, onPin("20")],
  tries: ["NUMBER", "VERIFY without data, which asks for the tries", 1, 1, onPin("20")],
  change: ["NUMBER OLD NEW", "CHANGE REFERENCE DATA", 3, 3, onPin("24")],
  unblock: ["NUMBER PUK NEW", "RESET RETRY COUNTER", 3, 3, onPin("2C")],
  disable: ["NUMBER PIN", "DISABLE VERIFICATION REQUIREMENT", 2, 2, onPin("26")],
  enable: ["NUMBER PIN", "ENABLE VERIFICATION REQUIREMENT", 2, 2, onPin("28")],
};

// The line of a script that a named command, or a command in bare digits, stands for, or why there is none. Null for
// any other line.
export function lineFor(text) {
  const [name, ...words] = text.split(/\s+/).filter((it) => it), bare = [name, ...words].join("");
  if (/^[0-9A-Fa-f]{4,}$/.test(bare)) return { line: `apdu ${bare.toUpperCase()}` };
  if (!Object.hasOwn(NAMES, name ?? "")) return null;
  const [usage, , least, most, make] = NAMES[name];
  if (words.length < least || words.length > most) return { why: `${name} ${usage}, which stands for an apdu line` };
  try {
    return { line: `apdu ${make(words)}` };
  } catch (why) {
    if (why instanceof Unclear) return { why: why.message };
    throw why;
  }
}
