// What the tests ask of the page's parts, in a browser and in node. `parts` are those of web/parts.js; `card` and
// `second` are cards of its module.
({
  // Of each script, given as characters for bytes: what the page's own run prints, and the bench in the module.
  outputs({ parts, module, card }, scripts) {
    return scripts.map((script) => {
      const { rows } = parts.run.run(card, parts.script.lines(script));
      const mine = rows.filter((it) => it.asked && it.printed !== null).map((it) => `${it.printed}\n`).join("");
      const status = rows.length && rows.at(-1).asked === undefined ? 2 : 0;
      return { mine, status, bench: parts.bench.bench(module, Uint8Array.from(script, (it) => it.charCodeAt(0))) };
    });
  },

  // The words of each answer of each case.
  words({ parts, card, tables }, cases) {
    return cases.map((script) => {
      const made = parts.run.run(card, parts.script.lines(script)), log = new parts.words.Log(tables);
      const image = made.first.slice(), said = [];
      for (const row of made.rows) {
        const card = parts.memory.cardOf(image);
        if (row.asked && row.printed !== null) said.push(log.printed(row.asked, row.printed, card));
        for (const it of row.writes) image.set(it.words, it.address);
      }
      return said;
    });
  },

  // Whether each line is of the language, and why not; and what it stands for as a name.
  lines({ parts, tables }, given) {
    return given.map((line) => ({
      isGood: parts.script.parse(line) !== undefined, why: parts.fault.fault(line, tables.orders),
      name: parts.names.lineFor(line),
    }));
  },

  // Every cut of the command of a sweep's script.
  async sweep({ parts, card, second }, script) {
    const all = parts.script.lines(script), at = all.findIndex((it) => it.text === "# command");
    const before = all.slice(0, at), command = all.slice(at).find((it) => it.asked);
    const made = parts.run.run(card, [...before, command]), { writes } = made.rows.at(-1);
    const orders = before.map((it) => it.asked);
    const found = await parts.sweep.sweep(second, made.first, orders, command.asked, writes, async () => true);
    return {
      answer: found.answer, runs: found.runs, commits: found.turns,
      writes: writes.map((it) => [it.words.length, it.kind]),
      outcomes: found.outcomes.map((it) => [it.runs, it.card]),
    };
  },

  // Of fragments of links: the script and the line, or why there is none.
  async links({ parts }, fragments) {
    const found = [];
    for (const it of fragments) {
      try {
        const { script, line } = await parts.share.unpack(it);
        found.push([script.length, script.slice(0, 9), line ?? null]);
      } catch (why) {
        found.push(why.message);
      }
    }
    return found;
  },

  // The cards in images: files, PINs, free space, as the page shows them.
  cards({ parts }, images) {
    const { cardOf, imageOf } = parts.memory, { hex } = parts.card;
    return images.map((letters) => {
      const { files, pins, terminated, free, freeEntries } = cardOf(imageOf(parts.share.unbase64(letters)));
      return {
        files: files.map((it) =>
          [["3F00", ...it.path].join("/"), it.kind, it.state, hex(it.body), it.records.map(hex)]),
        pins: pins.map((it) => [it.tries, it.unblocking, it.value, it.puk, it.enabled]),
        terminated, free: free.length, freeEntries,
      };
    });
  },

  // Images: what each is refused with, or null.
  images({ parts, module }, images) {
    const { Card } = parts.card;
    return images.map((letters) => {
      try {
        const words = parts.memory.imageOf(parts.share.unbase64(letters));
        new Card(module).insert(words, false);
        return null;
      } catch (why) {
        return why.outcome ?? why.message;
      }
    });
  },

  // Of templates, given as digits: the fault of each, and else its words.
  templates({ parts }, given) {
    const { Template, templateFault } = parts.templates;
    return given.map((digits) => {
      const text = parts.card.unhex(digits);
      return templateFault(text) ?? new Template(text).inWords();
    });
  },

  // Commands a second.
  pace({ card }, many) {
    card.factory();
    const select = { order: "apdu", bytes: Uint8Array.of(0x00, 0xa4, 0x00, 0x0c, 0x02, 0x2f, 0xe2) };
    const read = { order: "apdu", bytes: Uint8Array.of(0x00, 0xb0, 0x00, 0x00, 0x0a) };
    for (const it of [{ order: "on" }, select]) card.perform(it);
    const began = performance.now();
    for (let it = 0; it < many; it++) card.perform(read);
    return many / ((performance.now() - began) / 1000);
  },
})
