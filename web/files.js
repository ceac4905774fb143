// Files that are opened or saved: memory images and scripts.

import { MOST_WORDS } from "./card.js";
import { bytesOf, imageOf } from "./memory.js";

const MOST_SCRIPT = 1 << 20;
const REASONS = {
  "no card": "its words hold no valid card (tools/card FILE says what is wrong)",
  size: "a card has 1,024 to 4,096 pages",
  memory: "the module has no memory left",
};

const isScript = (name) => /\.(script|test|rows|txt)$/i.test(name);

// Reads a file: { script } or { words }. It throws with a sentence where it is neither. The module says whether words
// are a card.
export async function readFile(file, card) {
  const refuse = (why) => {
    throw new Error(`The file ${file.name} wasn’t opened: ${why}.`);
  };
  if (isScript(file.name)) {
    if (file.size > MOST_SCRIPT) refuse(`a script here has at most ${MOST_SCRIPT.toLocaleString("en")} bytes`);
    return { script: await file.text() };
  }
  if (file.size > 4 * MOST_WORDS) {
    refuse(`a card has at most ${(4 * MOST_WORDS).toLocaleString("en")} bytes, and it has more`);
  }
  const bytes = new Uint8Array(await file.arrayBuffer());
  try {
    const words = imageOf(bytes);
    card.insert(words, false);
    return { words };
  } catch (why) {
    return refuse(REASONS[why.outcome] ?? why.message);
  }
}

// Hands a memory to the visitor as a file.
export function saveFile(words, name) {
  const url = URL.createObjectURL(new Blob([bytesOf(words)], { type: "application/octet-stream" }));
  const link = Object.assign(document.createElement("a"), { href: url, download: name });
  link.click();
  setTimeout(() => URL.revokeObjectURL(url), 1000);
}
