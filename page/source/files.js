// What a file holds, as far as a page can unpack it: the bytes of each piece, or what can't be
// read.

import { STOP } from "./following.js";
import { inflated } from "./inflating.js";
import { readZip } from "./zip.js";

const DEEPEST = 4;
const MEMBERS = 20_000;
const UNPACKED = 2 ** 30;
const BLOSC = 16; // the bytes of its header
const BLOCK = 512, PIECE = 1 << 20;
const NUMBERS = [[100, 8], [108, 8], [116, 8], [124, 12], [136, 12], [148, 8]];

const XZ = [0xfd, 0x37, 0x7a, 0x58, 0x5a];
const PACKED = [
  [[0x1f, 0x8b], "gzip", "gzip"],
  [[0x42, 0x5a, 0x68], "", "bzip2"],
  [XZ, "", "xz"],
  [[0x28, 0xb5, 0x2f, 0xfd], "", "Zstandard"],
  [[0x04, 0x22, 0x4d, 0x18], "", "LZ4"],
  [[0x37, 0x7a, 0xbc, 0xaf], "", "7z"],
  [[0x52, 0x61, 0x72, 0x21], "", "RAR"],
  [[0x5a, 0x46], "", "joblib's compression"],
  [[0x89, 0x48, 0x44, 0x46], "", "HDF5"],
];

// Stores and caches of pickles, which this page doesn't read, by how they begin.
const STORES = [
  [/^SQLite format 3\0/, "SQLite"],
  [/^(?:\x13\x57\x9a[\xcd-\xd1]|[\xcd-\xd1]\x9a\x57\x13)/, "GDBM"],
  [/^[^]{12}\0(?:\x05\x31\x62|\x06\x15\x61|\x04\x22\x53)/, "Berkeley DB"],
  [/^[^]{12}(?:\x62\x31\x05|\x61\x15\x06|\x53\x22\x04)\0/, "Berkeley DB"],
  [/^[^]{16}\xde\xc0\xef\xbe/, "LMDB"],
  [/^[^]{512}\x89HDF/, "HDF5"],
  [/^(?:ARROW1|FEA1)/, "Arrow"],
  [/^PAR1/, "Parquet"],
  [/^(?:FS(?:21|20|30)|SEQ[\x04-\x06])/, "other stores"],
  [/^(?:REDIS[0-9]{4}|\*[1-9][0-9]{0,9}\r\n\$[0-9])/, "Redis"],
  [/^[\x81-\x8f\xde][^]{0,9}(?:\xa2|\xc4\x02)nd\xc3/, "other stores"],
  [/^[^\x80][^]{3}\x80[\x02-\x05]/, "cachelib"],
];
const LOCAL = [0x50, 0x4b, 3, 4], USTAR = [0x75, 0x73, 0x74, 0x61, 0x72];
const DIFFERING = "differing-readings";
const STORAGE = /^((?:.*\/)?(?:data|constants))\/[0-9]+$/s; // the numbers of a tensor of torch's
const NUMPY = [0x93, 0x4e, 0x55, 0x4d, 0x50, 0x59];

const HEADER = new RegExp("^\\{'descr': '[<>|=]([biufcSUmM])([0-9]{1,4})(?:\\[[a-zA-Z0-9]*\\])?', "
  + "'fortran_order': (?:True|False), 'shape': \\(((?:[0-9]{1,15},? ?)*)\\), \\} *\n$");

const OBJECTS = new RegExp("^\\{'descr': (?:'\\|O'|\\[[^{]*'\\|O'[^{]*\\]), 'fortran_order': "
  + "(?:True|False), 'shape': \\([0-9, ]*\\), \\} *\n?$");

let memberFormats = [];

// What zip files are by the names of their members: a `pattern`, and what is told.
export function learnMembers(formats) {
  memberFormats = formats.map((it) => ({ ...it, pattern: new RegExp(`^(?:${it.pattern})$`, "s") }));
}

export class Budget {
  constructor() {
    this.bytes = UNPACKED;
    this.members = MEMBERS;
  }

  // Takes bytes, and returns whether that many were left.
  spend(bytes) {
    this.bytes -= bytes;
    return this.bytes >= 0;
  }
}

function begins(bytes, with_) {
  return with_.every((byte, at) => bytes[at] === byte);
}

// The pieces of a file: `{ path, kind, blob }`, or `{ path, kind, problem, fault }` where something
// can't be read, or `{ path, kind, isOther, why }` where nothing is a pickle. Kinds and faults are
// those of `storklocker scan`.
export async function* piecesOf(path, blob, budget, depth = 0, kind = "pickle", isRaw = false) {
  const front = new Uint8Array(await blob.slice(0, 2 * BLOCK).arrayBuffer());
  const packed = PACKED.find(([magic]) => begins(front, magic));
  const zip = await readZip(blob, budget);
  const isZlib = front[0] === 0x78 && (front[0] * 256 + front[1]) % 31 === 0;
  if (depth === DEEPEST && (zip || packed || isZlib || isTar(front))) {
    yield { path, kind, fault: "too-much", problem: "It is nested deeper than this page looks." };
    return;
  }
  if (zip) yield* insideZip(path, zip, budget, depth);
  if (zip && begins(front, [0x50, 0x4b])) return;
  if (begins(front, LOCAL)) {
    const problem = "This zip file has no directory: readers differ about it.";
    yield { path, kind: "zip", fault: "broken-container", problem };
  }
  if (begins(front.subarray(257), USTAR) && !isTar(front)) {
    const problem = "The checksum of this tar file is wrong: readers differ about it.";
    yield { path, kind: "tar", fault: DIFFERING, problem };
  }
  if (packed && !packed[1]) {
    const problem = `This page can't unpack ${packed[2]}. \`storklocker scan\` may.`;
    yield { path, kind: packed[2], fault: "unknown-container", problem };
  } else if (packed || isZlib) {
    yield* unpack(path, blob, packed?.[2] ?? "zlib", budget, depth);
  } else if (isTar(front)) {
    yield* insideTar(path, blob, budget, depth);
    yield { path, kind, blob, isAside: true }; // the name of its first member may begin a pickle
  } else if (isBlosc(front, blob.size)) {
    yield { path, kind: "Blosc", fault: "unknown-container", problem: "It is packed by Blosc." };
  } else if (isLzma(front)) {
    yield unread(path, "LZMA");
  } else if (!isRaw && front[0] === 0 && await isBehindZeros(blob)) {
    yield unread(path, "what stands behind zeros");
  } else if (begins(front, NUMPY)) {
    yield* insideArray(path, blob, front);
  } else if (storeOf(front) || await isRecord(blob, 0)) {
    yield unread(path, storeOf(front) ?? "other stores");
  } else {
    yield { path, kind, blob, isRaw, isInner: depth > 0 };
  }
}

function storeOf(front) {
  const text = String.fromCharCode(...front);
  return STORES.find(([pattern]) => pattern.test(text))?.[1];
}

// Whether a pickle stands behind its length at a place, and the end or another length behind it.
async function isRecord(blob, at) {
  const length = await lengthAt(blob, at), end = at + 4 + length;
  if (!(length > 1 && end <= blob.size)) return false;
  const [last] = new Uint8Array(await blob.slice(end - 1, end).arrayBuffer());
  const isNext = end + 4 <= blob.size && end + 4 + await lengthAt(blob, end) <= blob.size;
  return last === STOP && (end === blob.size || isNext);
}

async function lengthAt(blob, at) {
  const bytes = await blob.slice(at, at + 4).arrayBuffer();
  return bytes.byteLength === 4 ? new DataView(bytes).getUint32(0) : NaN;
}

export function unread(path, kind) {
  const problem = `This page doesn't read ${kind}. \`storklocker scan\` does.`;
  return { path, kind, fault: "unknown-container", problem };
}

// What is told of bytes behind a pickle that are packed, as the values of Django's cache are, or an
// array, which NumPy reads there.
export async function packedBehind(path, blob) {
  const front = new Uint8Array(await blob.slice(0, NUMPY.length).arrayBuffer());
  const isZlib = (front[0] & 0x8f) === 8 && (front[0] * 256 + front[1]) % 31 === 0;
  if (begins(front, NUMPY)) return unread(path, "arrays after a pickle");
  return isZlib ? unread(path, "packed contents after a pickle") : undefined;
}

// Whether it may be packed by Blosc, as chunks of zarr are: by the sizes that it announces.
function isBlosc(front, size) {
  if (front.length < BLOSC) return false;
  const [unpacked, part, packed] = new Uint32Array(front.slice(4, BLOSC).buffer);
  const isSize = packed >= BLOSC && packed <= Math.min(size, unpacked + 2 * BLOSC);
  return front[0] >= 1 && front[0] <= 5 && front[1] === 1 && isSize && part > 0 && part <= unpacked;
}

// Whether zeros stand in front of a tar file, or of what is packed: an empty stream of LZMA may be
// zeros.
async function isBehindZeros(blob) {
  let at = 0, front = new Uint8Array();
  while (at < blob.size && front.every((byte) => byte === 0)) {
    front = new Uint8Array(await blob.slice(at, at + PIECE).arrayBuffer());
    at += PIECE;
  }
  at -= PIECE - front.findIndex((byte) => byte !== 0);
  const block = Math.floor(at / BLOCK) * BLOCK;
  const data = new Uint8Array(await blob.slice(block, block + 2 * BLOCK).arrayBuffer());
  const behind = data.slice(at - block);
  return isTar(data) || begins(data.subarray(257), USTAR) || begins(behind, XZ) || isLzma(behind);
}

// Whether it is LZMA alone, as packers begin it, which has no magic: its window, or a size that
// isn't known.
function isLzma(front) {
  if (front.length < 14 || front[0] >= 225) return false;
  const window = new DataView(front.buffer).getUint32(1, true);
  const isWindow = window >= 4096 && window % 4096 === 0;
  const isEndless = front.subarray(5, 13).every((byte) => byte === 0xff);
  return isEndless || (isWindow && (front[12] === 0 || front[13] === 0));
}

async function* insideZip(path, zip, budget, depth) {
  for (const problem of zip.problems) yield { path, kind: "zip", fault: DIFFERING, problem };
  const all = zip.members.map(({ name: it }) => it);
  for (const told of memberFormats) {
    if (all.some((it) => told.pattern.test(it))) yield { path, ...told };
  }
  if (!zip.problems.length && !zip.members.length) yield { path, kind: "zip", isOther: true };
  const names = new Set(all);
  for (const member of zip.members) {
    const inner = `${path} › ${member.name}`, storage = STORAGE.exec(member.name);
    const isRaw = storage !== null && names.has(`${storage[1]}.pkl`);
    const found = member.isFolder ? {} : await member.open();
    yield* opened(inner, "zip member", found, budget, depth, isRaw);
  }
}

async function* opened(path, kind, { blob, problem }, budget, depth, isRaw = false) {
  if (problem) yield { path, kind, fault: "broken-container", problem };
  if (blob) yield* piecesOf(path, blob, budget, depth + 1, kind, isRaw);
}

async function* unpack(path, blob, kind, budget, depth) {
  const found = await inflated(blob, kind === "zlib" ? "deflate" : kind, budget);
  yield* opened(`${path} › unpacked`, kind, found, budget, depth);
}

// Whether a block is a header of tar: its checksum counts itself as blanks.
function isTar(block) {
  if (block.length < BLOCK) return false;
  let sum = 8 * 0x20;
  for (let at = 0; at < BLOCK; at += 1) if (at < 148 || at >= 156) sum += block[at];
  return sum > 8 * 0x20 && sum === number(block, 148, 8);
}

// A number of a header, as Python's `tarfile` reads it: in octal digits, or in bytes.
function number(block, at, size) {
  if (block[at] === 0x80) return block.subarray(at + 1, at + size).reduce(appended, 0);
  const [digits] = String.fromCharCode(...block.subarray(at, at + size)).split("\0", 1);
  const plain = digits.trim().replace(/^\+/, "").replace(/^0[oO]/, "").replaceAll("_", "");
  return /^[0-7]*$/.test(plain) ? parseInt(plain || "0", 8) : NaN;
}

function appended(made, byte) {
  return made * 256 + byte;
}

function name(block, at, size) {
  const end = block.indexOf(0, at);
  const most = at + size;
  return new TextDecoder().decode(block.subarray(at, end < 0 || end > most ? most : end));
}

async function* insideTar(path, blob, budget, depth) {
  let at = 0;
  while (at + BLOCK <= blob.size) {
    const block = new Uint8Array(await blob.slice(at, at + BLOCK).arrayBuffer());
    if (!isTar(block)) break;
    const size = number(block, 124, 12);
    budget.members -= 1;
    if (!(at + BLOCK + size <= blob.size) || budget.members < 0) {
      const problem = "This tar file is damaged, or has too many members.";
      yield { path, kind: "tar", fault: "broken-container", problem };
      return;
    }
    const inner = `${path} › ${name(block, 0, 100)}`;
    const body = blob.slice(at + BLOCK, at + BLOCK + size);
    if (await isOdd(block, body)) {
      const problem = "Readers differ about a header of this tar file.";
      yield { path, kind: "tar", fault: DIFFERING, problem };
    }
    if (size > 0) yield* piecesOf(inner, body, budget, depth + 1, "tar member");
    at += BLOCK + Math.ceil(size / BLOCK) * BLOCK;
  }
  const rest = blob.slice(at);
  const problem = "Bytes follow the end of this tar file, or it is truncated.";
  const isWhole = rest.size % BLOCK === 0 && await isZero(rest);
  if (!isWhole) yield { path, kind: "tar", fault: DIFFERING, problem };
}

// Whether readers differ about a header: in its numbers, in what isn't a file and has contents, or
// in what follows it by another size.
async function isOdd(block, body) {
  const type = String.fromCharCode(block[156]);
  const isOctal = NUMBERS.every(([at, size]) => block[at] === 0x80 || block[at] === 0xff
    || /^ *[0-7]*[ \0]*$/.test(String.fromCharCode(...block.subarray(at, at + size))));
  const records = "xg".includes(type) ? await body.text() : "";
  const isExtended = "xXgLK".includes(type), isFile = "0\x007S".includes(type);
  return !isOctal || (!isExtended && !isFile && "123456".includes(type) && body.size > 0)
    || / size=/.test(records) || (type === "g" && / (?:link)?path=/.test(records));
}

async function isZero(blob) {
  if (blob.size > UNPACKED) return false;
  return new Uint8Array(await blob.arrayBuffer()).every((byte) => byte === 0);
}

// An array of NumPy is a pickle behind its header if its type has objects.
async function* insideArray(path, blob, front) {
  const isShort = front[6] === 1, view = new DataView(front.buffer);
  const isCut = front.length < 12;
  const length = isCut ? 0 : isShort ? view.getUint16(8, true) : view.getUint32(8, true);
  const start = Math.min((isShort ? 10 : 12) + length, blob.size);
  const header = await blob.slice(isShort ? 10 : 12, Math.min(start, 1 << 16)).text();
  const size = sizeOf(header);
  if (header.includes("O")) {
    const problem = "Its type isn't one that NumPy writes: readers may differ.";
    if (!OBJECTS.test(header)) yield { path, kind: "npy", fault: DIFFERING, problem };
    yield { path: `${path} › objects`, kind: "npy", blob: blob.slice(start), isClaimed: true };
  } else if (start + size === blob.size) {
    yield { path, kind: "npy", isOther: true, why: "numbers only" };
  } else {
    const problem = "An array of numbers: this page doesn't read anything after it.";
    yield { path, kind: "npy", fault: DIFFERING, problem };
  }
}

// The bytes of the items of an array of numbers, as NumPy writes its header; NaN otherwise.
function sizeOf(header) {
  const found = HEADER.exec(header);
  if (!found) return NaN;
  const counts = found[3].split(",").map((it) => it.trim()).filter(Boolean).map(Number);
  const item = Number(found[2]) * (found[1] === "U" ? 4 : 1);
  return counts.reduce((size, count) => size * count, item);
}
