// How the page follows pickles: walks.mjs FOLDER MODULE.wasm, with the scripts of the page in
// FOLDER, and on standard input the renamed names, and pickles in Base64. Prints JSON: what it says
// of the calls of each of `accepted`; and of each of `others` the names that a reader imports,
// whether it gets to the end, and whether one reads other bytes than are shown.

import { readFileSync } from "node:fs";
import { join } from "node:path";
import { pathToFileURL } from "node:url";

const [folder, module] = process.argv.slice(2);
const from = (name) => import(pathToFileURL(join(folder, name)));
const { Checker } = await from("checker.js");
const { learnLayouts } = await from("following.js");
const { callsWhy } = await from("calls.js");
const { Naming } = await from("naming.js");
const { Renaming } = await from("renaming.js");

const { renames, accepted, others } = JSON.parse(readFileSync(0, "utf8"));
const renaming = new Renaming(renames);
learnLayouts(new Checker(new WebAssembly.Module(readFileSync(module))));

const bytesOf = (text) => Uint8Array.from(Buffer.from(text, "base64"));

function named(bytes) {
  const walk = new Naming(bytes, 0, renaming);
  const isEnded = walk.again();
  return [walk.names().map(({ module: it, name }) => [it, name]), isEnded, walk.isMisread];
}

const calls = accepted.map((it) => callsWhy(bytesOf(it), 0));
process.stdout.write(JSON.stringify({ calls, names: others.map((it) => named(bytesOf(it))) }));
