// What the page says of files: verdicts.mjs FOLDER MODULE.wasm FILES, with the scripts of the page
// in FOLDER, and on standard input what the page has of names and words, and lists. Prints JSON:
// under each list for each file its parts, each with path, word, kind, why and findings.

import { File } from "node:buffer";
import { readFileSync, readdirSync } from "node:fs";
import { join } from "node:path";
import { pathToFileURL } from "node:url";

import "./strict.mjs";

const [folder, module, files] = process.argv.slice(2);
const { begun, said, lists } = JSON.parse(readFileSync(0, "utf8"));
let told = [];
let ended = null;

globalThis.self = globalThis;
globalThis.postMessage = (message) => {
  told.push(message);
  if (["ready", "done", "failed"].includes(message.kind)) ended();
};
const from = (name) => import(pathToFileURL(join(folder, name)));
await from("worker.js");
const { Judge } = await from("judging.js");
const { Known } = await from("dangers.js");
const judge = new Judge(said, new Known(begun.known));

function ask(data) {
  told = [];
  return new Promise((resolve) => {
    ended = resolve;
    self.onmessage({ data });
  });
}

function parted(pairs) {
  if (told.at(-1).kind !== "done") return [{ path: "", word: "failed", kind: told.at(-1).why }];
  const parts = told.filter((it) => it.kind === "part");
  return parts.map(({ part }) => judge.judged(part, pairs)).map((part) => {
    const { path, word, kind, why, findings } = part;
    const line = judge.headline([part]);
    return { path, word, kind, why, line, findings };
  });
}

const found = {};
for (const [name, source] of Object.entries(lists)) {
  await ask({ kind: "begin", code: readFileSync(module), told: begun, source });
  const { pairs } = told.find((it) => it.kind === "list");
  found[name] = {};
  for (const file of readdirSync(files).sort()) {
    await ask({ kind: "files", files: [new File([readFileSync(join(files, file))], file)] });
    found[name][file] = parted(pairs);
  }
}
process.stdout.write(JSON.stringify({ found, words: judge.words }), () => process.exit(0));
