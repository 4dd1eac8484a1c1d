// What the page's worker finds in files: containers.mjs FOLDER MODULE.wasm FILES, with the scripts
// of the page in FOLDER, and on standard input what the worker has of words and names. Prints a
// line for each file: its name, and the kinds of its parts.

import { File } from "node:buffer";
import { readFileSync, readdirSync } from "node:fs";
import { join } from "node:path";
import { pathToFileURL } from "node:url";

import "./strict.mjs";

const [folder, module, files] = process.argv.slice(2);
const LIST = 'version = 1\n[imports]\ndatetime = ["datetime"]\n';
let told = [];
let ended = null;

globalThis.self = globalThis;
globalThis.postMessage = (message) => {
  told.push(message);
  if (["ready", "done", "failed"].includes(message.kind)) ended();
};
await import(pathToFileURL(join(folder, "worker.js")));

function ask(data) {
  told = [];
  return new Promise((resolve) => {
    ended = resolve;
    self.onmessage({ data });
  });
}

function kindOf({ problem, isOther, verdict }) {
  if (problem) return "unread";
  if (isOther) return "other";
  return verdict.status === 0 ? "yes" : "no";
}

const begun = JSON.parse(readFileSync(0, "utf8"));
await ask({ kind: "begin", code: readFileSync(module), told: begun, source: LIST });
for (const name of readdirSync(files).sort()) {
  await ask({ kind: "files", files: [new File([readFileSync(join(files, name))], name)] });
  const parts = told.filter((it) => it.kind === "part").map(({ part }) => kindOf(part));
  console.log([name, told.at(-1).kind, ...new Set(parts)].join(" "));
}
process.exit(0);
