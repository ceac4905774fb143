// The calls of include/soffitfennel.h. Each card has an instance of the module to itself. C's size_t is a BigInt here.

const OUTCOMES = ["done", "mute", "dark", "lost", "size", "memory", "no card", "unstored", "absent"];
const PRINTED = ["mute", "dark", "lost"];
const ROOM = 258;
const MOST_GIVEN = 300;
const STORE = 1; // the number of a card's own device
export const ATR = "3B808131FE458B";
export const LEAST_WORDS = 16384;
export const MOST_WORDS = 65536;

export const hex = (bytes) => Array.from(bytes, (it) => it.toString(16).padStart(2, "0")).join("").toUpperCase();
export const unhex = (digits) => Uint8Array.from(digits.match(/../g) ?? [], (it) => parseInt(it, 16));

// An outcome of the module that no line of a script has.
export class Refusal extends Error {
  constructor(outcome) {
    super(`the module answers: ${outcome}`);
    this.outcome = outcome;
  }
}

// A card, and the device writes that it made since they were last taken.
export class Card {
  constructor(module) {
    const store = (...given) => this.store(...given);
    this.calls = new WebAssembly.Instance(module, { env: { soffitfennel_store: store } }).exports;
    this.base = this.calls.__global_base.value;
    [this.handle, this.given, this.answer, this.size] = [16, MOST_GIVEN, ROOM, 16].map((it) => this.alloc(it));
    this.image = this.alloc(4 * MOST_WORDS);
    this.view.setBigUint64(this.handle, 0n, true);
    this.made = [];
  }

  alloc(count) {
    const at = this.calls.alloc(count);
    if (!at) throw new Refusal("memory");
    return at;
  }

  get buffer() {
    return this.calls.memory.buffer;
  }

  get view() {
    return new DataView(this.buffer);
  }

  // The number that a call left, `at` bytes behind the first one.
  number(at = 0) {
    return Number(this.view.getBigUint64(this.size + at, true));
  }

  bytes(at, count) {
    return new Uint8Array(this.buffer, at, count);
  }

  // The module calls this with each write of a card that has a device, before a call returns.
  store(device, at, size, offset) {
    const bytes = new DataView(this.buffer, at, Number(size));
    const words = Array.from({ length: Number(size) / 4 }, (_, it) => bytes.getUint32(4 * it));
    this.made.push({ address: Number(offset) / 4, words });
    return size;
  }

  // The writes since the last call: the first word's address, and the words.
  writes() {
    return this.made.splice(0);
  }

  call(name, ...given) {
    return OUTCOMES[this.calls[`soffitfennel_${name}`](this.handle, ...given)];
  }

  must(outcome) {
    if (outcome !== "done") throw new Refusal(outcome);
  }

  // The factory card, without a device.
  factory() {
    this.must(this.call("factory", BigInt(LEAST_WORDS / 16)));
    return this;
  }

  // The card with these words, without a device or with one that tells its writes.
  insert(words, hasDevice) {
    new Uint32Array(this.buffer, this.image, words.length).set(words);
    const given = [this.image, BigInt(words.length)];
    this.must(hasDevice ? this.call("attach", ...given, STORE) : this.call("insert", ...given));
    this.made = [];
    return this;
  }

  words() {
    this.must(this.call("words", this.image, BigInt(MOST_WORDS), this.size));
    return new Uint32Array(this.buffer, this.image, this.number()).slice();
  }

  // Runs an order of a script; returns what the bench prints for it, or null.
  perform({ order, bytes, number, mask }) {
    switch (order) {
      case "on": return this.line(this.call("power_on"), () => `atr ${ATR}`);
      case "off": return this.line(this.call("power_off"), () => null);
      case "apdu": return this.exchange("command", bytes);
      case "block": return this.exchange("block", bytes);
      case "cut": return this.line(this.call("cut", number, mask), () => null);
      case "free": return this.line(this.call("free_space", this.size, this.size + 8), () => this.space());
      default: return this.line(this.call(order, number), () => null); // lose, garble
    }
  }

  space() {
    return `free ${this.view.getUint16(this.size, true)} ${this.view.getUint16(this.size + 8, true)}`;
  }

  exchange(call, bytes) {
    this.bytes(this.given, bytes.length).set(bytes);
    const outcome = this.call(call, this.given, BigInt(bytes.length), this.answer, BigInt(ROOM), this.size);
    return this.line(outcome, () => `< ${hex(this.bytes(this.answer, this.number()))}`);
  }

  line(outcome, done) {
    if (outcome === "done") return done();
    if (PRINTED.includes(outcome)) return outcome;
    throw new Refusal(outcome);
  }

  // The whole card with its session. (Between calls all of it is in the module's memory, above the stack.)
  snapshot() {
    return new Uint8Array(this.buffer, this.base).slice();
  }

  restore(snapshot) {
    new Uint8Array(this.buffer, this.base).set(snapshot);
  }
}
