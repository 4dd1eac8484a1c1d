// Prints what the package says of each pickle in a file, as answers.rs does, but each import once
// with how often, and then the digest of the listing: answers.mjs FOLDER FILE LIST

import { createHash } from "crypto";
import { readFileSync } from "fs";
import { pathToFileURL } from "url";

const [folder, file, allow] = process.argv.slice(2);

function said(run, isStream) {
  try {
    const { taken, pickles, imports } = run();
    return `yes: ${taken} bytes, ${isStream ? `${pickles} pickles, ` : ""}${imports} imports`;
  } catch (error) {
    if (error.name !== "Refusal") throw error;
    return error.message;
  }
}

function quoted(name) {
  const escaped = (byte) => `\\x${byte.toString(16).padStart(2, "0")}`;
  const plain = (byte) => byte >= 32 && byte < 127 && byte !== 34 && byte !== 92;
  const bytes = Array.from(Buffer.from(name, "utf-8"));
  return `"${bytes.map((it) => (plain(it) ? String.fromCharCode(it) : escaped(it))).join("")}"`;
}

import(pathToFileURL(`${folder}/index.mjs`)).then(({ dis, imports, List }) => {
  const bytes = readFileSync(file), lines = [];
  const list = List.parse(readFileSync(allow, "utf-8"));
  const limits = { numbers: 4294967295 };
  for (let at = 0; at < bytes.length;) {
    const kind = bytes[at], end = at + 5 + bytes.readUInt32LE(at + 1);
    const pickle = bytes.subarray(at + 5, end);
    at = end;
    list.limits = { ...limits, oldStrings: ["unknown", "ascii", "bytes"][kind] };
    if (kind < 3) lines.push(said(() => list.check(pickle), false));
    else if (kind === 3) lines.push(said(() => list.checkStream(pickle), true));
    else lines.push("one Unpickler");
    const { found, refusal } = imports(pickle, limits);
    for (const { module, name, count } of refusal ? [] : found) {
      lines.push(`${count} ${module === null ? "unknown" : `${quoted(module)} ${quoted(name)}`}`);
    }
    lines.push(refusal ? refusal.message : "yes");
    lines.push(createHash("sha256").update(dis(pickle)).digest("hex"));
  }
  process.stdout.write(`${lines.join("\n")}\n`);
});
