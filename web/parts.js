// The parts of the page, for its console and its tests.

import * as bench from "./bench.js";
import * as card from "./card.js";
import * as fault from "./fault.js";
import * as files from "./files.js";
import * as memory from "./memory.js";
import * as names from "./names.js";
import * as run from "./run.js";
import * as script from "./script.js";
import * as share from "./share.js";
import * as sweep from "./sweep.js";
import * as templates from "./templates.js";
import * as words from "./words.js";

export const parts = { bench, card, fault, files, memory, names, run, script, share, sweep, templates, words };
