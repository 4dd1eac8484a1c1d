// Prints what storklocker.wasm says of each pickle in a file, as answers.c does; and with a fourth
// word, the listings: answers.mjs FOLDER FILE [LISTINGS]

import { closeSync, openSync, readFileSync, writeSync } from "node:fs";
import { pathToFileURL } from "node:url";

const [folder, file, listings] = process.argv.slice(2);
const { Checker } = await import(pathToFileURL(`${folder}/checker.mjs`));
const checker = new Checker(new WebAssembly.Module(readFileSync(`${folder}/storklocker.wasm`)));
const bytes = readFileSync(file);
const ROOM = 1 << 20, ANY_NUMBER = 2n ** 32n - 1n, PASSED = 2n ** 40n;

function* records() {
  for (let at = 0; at < bytes.length;) {
    const parts = [];
    for (let part = 0; part < 2; part += 1) {
      const length = bytes.readUInt32LE(at);
      parts.push(bytes.subarray(at + 4, at + 4 + length));
      at += 4 + length;
    }
    yield parts;
  }
}

function digest(at, length) {
  let sum = 2166136261;
  for (const byte of checker.memory().subarray(at, at + length)) {
    sum = Math.imul(sum ^ byte, 16777619);
  }
  return (sum >>> 0).toString(16);
}

function fields(at) {
  const view = new DataView(checker.exports.memory.buffer, at, 64);
  const words = [0, 4, 8, 12].map((place) => view.getUint32(place, true));
  return [...words, ...[16, 24, 32, 40, 48, 56].map((place) => view.getBigUint64(place, true))];
}

// Of storklocker.h: the size, the limits, and zeros.
function set(at, numbers) {
  const view = new DataView(checker.exports.memory.buffer, at, 64);
  [64n, 16_777_216n, 1_000_000n, 1_000_000n, PASSED, numbers].forEach((word, place) =>
    view.setBigUint64(8 * place, word, true));
}

function checked(list) {
  const { numbers } = checker.list(new TextDecoder("utf-8").decode(list));
  return checker.call((places) => {
    const { at, length } = checker.put(list);
    const room = checker.room(ROOM);
    set(places.settings, numbers);
    checker.exports.pkguard_check_list(
      at, length, places.settings, checker.at, BigInt(checker.size), room, BigInt(ROOM),
      places.verdict);
    const found = fields(places.verdict);
    return [...found, digest(room, Number(found[7] + found[8]))].join(" ");
  });
}

function imported() {
  return checker.call((places) => {
    const room = checker.room(ROOM);
    set(places.settings, ANY_NUMBER);
    checker.exports.pkguard_imports(
      places.settings, checker.at, BigInt(checker.size), room, BigInt(ROOM), places.wanted,
      places.verdict);
    const wanted = new DataView(checker.exports.memory.buffer).getBigUint64(places.wanted, true);
    const sum = digest(room, wanted <= ROOM ? Number(wanted) : 0);
    return [...fields(places.verdict), wanted, sum].join(" ");
  });
}

const lines = [];
const listed = listings ? openSync(listings, "w") : 0;
for (const [list, pickle] of records()) {
  if (!checker.load(pickle)) throw new Error("no memory");
  lines.push(`${checked(list)} | ${imported()}\n`);
  if (listed) {
    const listing = checker.listing(0) ?? Buffer.from("too long");
    const size = Buffer.alloc(4);
    size.writeUInt32LE(listing.length);
    writeSync(listed, size);
    writeSync(listed, listing);
  }
}
if (listed) closeSync(listed);
process.stdout.write(lines.join(""));
