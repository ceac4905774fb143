// Asks the page's parts in node: node in_node.mjs FOLDER, with { what, given } on standard input. FOLDER is a page.
import { readFileSync } from "node:fs";
import { pathToFileURL } from "node:url";
import { runInThisContext } from "node:vm";

const folder = process.argv[2], load = (name) => import(pathToFileURL(`${folder}/${name}.js`));
const { parts } = await load("parts"), { WORDS } = await load("data");
const module = new WebAssembly.Module(readFileSync(`${folder}/card.wasm`));
const said = JSON.parse(new TextDecoder().decode(await parts.share.gunzip(parts.share.unbase64(WORDS))));
const tables = { ...parts.words.readTables(said.card, said.why), orders: parts.fault.readOtherWords(said.orders) };
const asked = runInThisContext(readFileSync(new URL("asked.js", import.meta.url), "utf-8"));
const [card, second] = [new parts.card.Card(module), new parts.card.Card(module)];
const { what, given } = JSON.parse(readFileSync(0, "utf-8"));
process.stdout.write(JSON.stringify(await asked[what]({ parts, module, card, second, tables }, given)));
