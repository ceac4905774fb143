// A script's run on a card with a device: what each line prints, and each device write that it makes.

import { BLOCKS, GATE, JOURNAL } from "./memory.js";

// Runs lines from power off on, on the factory card or on the card with these words. Returns the words before and
// after, and of each line what it printed and its writes, with old and new words.
export function run(card, lines, words) {
  const first = words ?? card.factory().words();
  card.insert(first, true);
  const image = first.slice(), rows = [];
  for (const [at, { text, asked }] of lines.entries()) {
    if (asked === undefined) {
      rows.push({ at, text, asked, printed: `error line ${at + 1}`, writes: [] });
      break;
    }
    const printed = asked ? card.perform(asked) : null;
    rows.push({ at, text, asked, printed, writes: card.writes().map((it) => apply(image, it)) });
  }
  return { first, last: image, rows };
}

// Stores a write in the image; the write with its old words and its kind.
function apply(image, { address, words }) {
  const old = Array.from(words, (_, at) => image[address + at]), kind = kindOf(image, address, words, old);
  image.set(words, address);
  return { address, words, old, kind };
}

// The name of a write (docs/SWEEP.md, The output).
function kindOf(image, address, words, old) {
  if (address === GATE) return words[0] ? "gate" : "commit";
  if (address >= JOURNAL && address < BLOCKS) return "pairs";
  if (words.every((it, at) => it === old[at])) return "same";
  if (image[GATE]) return "words";
  return words.length === 1 ? "alone" : "fill";
}

// The memory before a line.
export function memoryAt({ first, rows }, at) {
  const image = first.slice();
  for (const row of rows.slice(0, at)) for (const it of row.writes) image.set(it.words, it.address);
  return image;
}
