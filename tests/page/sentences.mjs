// Looks names up as the page does, and compares: sentences.mjs FOLDER, with the names on standard
// input.

import { readFileSync } from "node:fs";
import { pathToFileURL } from "node:url";

const { Known } = await import(pathToFileURL(`${process.argv[2]}/dangers.js`));
const { known, wanted } = JSON.parse(readFileSync(0, "utf8"));
const names = new Known(known);

function agrees([module, name, severity, why]) {
  const found = names.of(module, name);
  if (severity === "") return found.severity === "unknown";
  return found.severity === severity && (severity === "harmless" || found.why === why);
}

const differing = wanted.filter((it) => !agrees(it));
for (const it of differing.slice(0, 5)) console.log("differs:", it, names.of(it[0], it[1]));
if (differing.length === 0) console.log(`${wanted.length} agree`);
