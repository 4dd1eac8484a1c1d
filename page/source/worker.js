// Reads files and judges what is in them, beside the page, which stays usable meanwhile.

import { callsWhy } from "./calls.js";
import { Checker, FREE, NO, NO_LIST, OutOfMemory, YES } from "./checker.js";
import { Costs } from "./costs.js";
import { Known } from "./dangers.js";
import { areMembers, isGetattr } from "./enums.js";
import { Budget, learnMembers, packedBehind, piecesOf, unread } from "./files.js";
import { NotFollowed, learnLayouts, setsState } from "./following.js";
import { Foreign } from "./foreign.js";
import { Cutter, isWrapper } from "./joblib.js";
import { Naming } from "./naming.js";
import { isOld } from "./renaming.js";
import { joined, keptIn } from "./rows.js";

const LARGEST = 2 ** 29;
const FRONT = 1 << 16;
const PICKLES = 1000;
// where every reader of one pickle stops, or imports: another may go on that keeps its memo
const STOPPING = ["Truncated", "UnknownOpcode", "UnsupportedProtocol", "MissingMark", "MissingItem",
  "MissingMemo", "OddItems", "NotText", "UnknownImport", "ExtensionCode"];
const TIME = 4; // the bytes in front of a value of cachelib
const TORCH = [..."\x80\x02\x8a\nl\xfc\x9cF\xf9 j\xa8P\x19."].map((it) => it.charCodeAt(0));
const TORCH_PICKLES = 5, AFTER_TORCH = "after a torch file";

let module = null;
let said = null; // of costs, in the words of the package
let known = null; // of names
let foreign = null;
let checker = null;
let loaded = null; // the bytes that the checker holds
let list = { status: NO_LIST };
let parts = [];

function post(kind, message) {
  self.postMessage({ kind, ...message });
}

function setList(source) {
  const found = checker.list(source);
  const pairs = found.pairs ?? [];
  const own = checker.costs(source, FREE), usual = checker.costs(source, said.usual);
  list = { ...found, pairs, own, usual, spelled: pairs.flatMap(spelled) };
  post("list", { fault: list.status === YES ? "" : list.reason, pairs });
}

// The pairs by which pickles with names of Python 2 import this one.
function spelled({ module: it, name }) {
  return [...known.renaming.spelled(it, name)].map(([from, old]) => ({ module: from, name: old }));
}

// A call that was ended in the middle leaves nothing that the next may use.
function afterFault(error) {
  checker = new Checker(module);
  loaded = null;
  return error.message || `${error}`;
}

async function load(blob) {
  if (loaded === blob) return;
  loaded = null;
  if (!checker.load(new Uint8Array(await blob.arrayBuffer()))) throw new OutOfMemory();
  loaded = blob;
}

async function readFiles(files) {
  parts = [];
  for (const file of files) {
    post("reading", { name: file.name });
    const budget = new Budget();
    try {
      for await (const piece of piecesOf(file.name, file, budget)) await judgePiece(piece);
      for await (const part of foreign.of(file.name, file)) add(part);
    } catch (error) {
      const why = afterFault(error);
      add({ path: file.name, problem: `This page can't read it to its end: ${why}.` });
    }
  }
  post("done", {});
}

function add(part) {
  const id = parts.length;
  parts.push(part);
  const { blob, ...told } = part;
  post("part", { part: { id, ...told } });
}

async function judgePiece(piece) {
  if (piece.problem || piece.finding || piece.isOther) return add(piece);
  if (piece.isInner) for await (const part of foreign.of(piece.path, piece.blob)) add(part);
  if (piece.blob.size > LARGEST) {
    const part = await largePiece(piece);
    return piece.isAside && part.isOther ? undefined : add(part);
  }
  await load(piece.blob);
  const found = [];
  for (let offset = 0, number = 1; number <= PICKLES; number += 1) {
    const part = judged(piece, offset, number);
    if (number === 1 && part.imports?.some(isWrapper)) return judgeJoblib(piece, part);
    if (!piece.isAside || !part.isOther) found.push(part);
    offset += part.any.taken;
    if (part.any.status !== YES || offset >= piece.blob.size) return addRow(piece, found);
    const behind = await packedBehind(piece.path, piece.blob.slice(offset));
    if (behind) return addRow(piece, [...found, behind]);
  }
  const problem = `This page reads no more than ${PICKLES} pickles.`;
  found.push({ path: piece.path, kind: kindOf(piece, 1), fault: "too-much", problem });
  return addRow(piece, found);
}

// The parts of a piece, and what one Unpickler reads of them. A stream of one Pickler is one part.
async function addRow(piece, parts) {
  const all = parts.filter((it) => it.any && it.kind !== AFTER_TORCH);
  const row = all.filter((it) => !it.isOther); // (one that is none by itself may end a stream)
  const told = row.length > 0 && all.length > 1
    && all.some((it) => it.imports?.length || it.any.status !== YES)
    ? await rowOf(piece, all) : null;
  if (told?.isStream) return add(told);
  lookForMembers(row);
  for (const part of parts) add(part);
  if (told) add(told);
  const isCached = isCachelib(piece, row);
  return isCached ? add(unread(piece.path, "cachelib")) : undefined;
}

async function rowOf({ path, blob }, row) {
  const last = row.at(-1), isRefused = last.any.status !== YES;
  const bytes = held().slice(0, isRefused ? blob.size : last.offset + last.any.taken);
  const whole = joined(bytes) ?? bytes, kind = "stream of pickles";
  if (isRefused && !last.isTorch && STOPPING.includes(last.any.reason) && whole !== bytes) {
    const stream = new Blob([whole]);
    await load(stream);
    const part = judged({ path, blob: stream, kind, isClaimed: true }, 0, 1);
    if (part.any.status === YES) {
      const apart = without(apartIn(row, bytes), part.imports ?? []);
      return { ...part, isStream: true, imports: [...(part.imports ?? []), ...apart] };
    }
    await load(blob);
  }
  const others = without(keptIn(bytes, known), row.flatMap((it) => it.imports ?? []));
  const told = others.filter(({ module: it, name }) =>
    ["danger", "warning"].includes(known.of(it, name).severity));
  if (told.length === 0) return null;
  const any = { status: YES, at: 0, taken: bytes.length, imports: told.length };
  const shown = { path, kind, blob: new Blob([whole]), offset: 0, number: 1, size: bytes.length };
  return { ...shown, isKept: true, imports: told, any, verdict: any };
}

// What `pickle.load` imports up to the broken one: of a name that is hidden there, as it may be.
function apartIn(row, bytes) {
  const names = row.flatMap((it) => it.imports ?? []);
  if (names.every((it) => it.module !== null)) return names;
  const walk = new Naming(bytes, row.at(-1).offset, known.renaming, known.texts);
  walk.again();
  return [...names.filter((it) => it.module !== null), ...walk.names()];
}

// These names without others.
function without(names, others) {
  const keys = new Set(others.map(({ module: it, name }) => JSON.stringify([it, name])));
  return names.filter(({ module: it, name }) => !keys.has(JSON.stringify([it, name])));
}

// Notes whether these pickles get nothing but members of enums by `getattr`.
function lookForMembers(row) {
  if (!row.some((it) => it.imports?.some(isGetattr))) return;
  const ends = row.map((it) => it.offset + it.any.taken);
  const isAccepted = row.every((it) => it.any.status === YES);
  const hasMembers = isAccepted && areMembers(held().subarray(row[0].offset), ends, known);
  for (const part of row) part.hasMembers = hasMembers;
}

// Whether a value behind a time imports what is known to do harm, and isn't seen from the front.
function isCachelib({ blob, isRaw }, row) {
  if (isRaw || blob.size <= TIME) return false;
  const walk = new Naming(held(), TIME, known.renaming);
  walk.again();
  const names = without(walk.names(), row.flatMap((it) => it.imports ?? []));
  return names.some(({ module: it, name }) => known.of(it, name).severity === "danger");
}

function held() {
  return checker.memory().subarray(checker.at, checker.at + checker.size);
}

// A file of joblib, whose arrays stand between the instructions: what is left without them, and the
// pickles of arrays of objects.
async function judgeJoblib(piece, part) {
  const { blob, path } = piece;
  try {
    const bytes = new Uint8Array(await blob.arrayBuffer());
    const { left, nested } = new Cutter(bytes, (at) => checker.imports(at).taken).cut();
    for (const one of [left, ...nested.map(([from, to]) => blob.slice(from, to))]) {
      await load(one);
      const cut = judged({ path, blob: one, kind: "joblib", isClaimed: true }, 0, 1);
      lookForMembers([cut]);
      add(cut);
    }
  } catch (error) {
    if (!(error instanceof NotFollowed)) throw error;
    const front = "joblib writes arrays between the instructions, but not like this";
    add({ ...part, kind: "joblib", isOther: false, raw: `${front}: ${error.message}` });
  }
}

// What the bytes are, as `storklocker scan` calls it.
function kindOf({ kind, isTorch }, number) {
  if (!isTorch) return kind ?? "pickle";
  return number <= TORCH_PICKLES ? "torch" : AFTER_TORCH;
}

async function largePiece(piece) {
  await load(piece.blob.slice(0, FRONT));
  const part = judged({ ...piece, isCut: true }, 0, 1);
  if (part.isOther) return part;
  const problem = "It is larger than this page reads.";
  return { path: piece.path, kind: part.kind, fault: "too-much", problem };
}

// What is found out about a pickle, whatever the list.
function judged(piece, offset, number) {
  const any = checker.imports(offset), front = frontOf(offset);
  if (isOld(front)) any.pairs = any.pairs?.map(renamedToday) ?? null;
  const isClaimed = piece.isClaimed || (front[0] === 0x80 && front[1] <= 5);
  if (number === 1) Object.assign(piece, { isTorch: startsWith(offset, TORCH), isRow: isClaimed });
  const walk = any.status === NO ? reached(offset) : null;
  const isOther = walk !== null && !isClaimed && !isReached(walk, piece)
    && !isBehind(piece, offset, number);
  const kind = kindOf(piece, number);
  const part = {
    path: piece.path, blob: piece.blob, offset, number, size: piece.blob.size - offset, any,
    isOther, isTorch: piece.isTorch, imports: importsOf(any, walk, isClaimed),
    kind: isOther && kind === "pickle" ? "file" : kind,
  };
  delete any.pairs;
  if (isOther) return { ...part, verdict: any };
  const costs = new Costs(checker, said).exceeded(offset);
  const calls = any.status === YES && part.imports?.length ? callsWhy(held(), offset) : "";
  const told = { costs, calls, hasBuild: setsState(held(), offset) };
  return { ...part, ...told, verdict: underList({ ...part, ...told }) };
}

// What a reader may get to in the pickle at an offset, which the checker refuses.
function reached(offset) {
  const walk = new Naming(held(), offset, known.renaming);
  return Object.assign(walk, { isEnded: walk.again() });
}

// Whether it gets to an import, or to the end. Numbers may look like the import of what has one.
function isReached(walk, { isRaw, isCut }) {
  const names = walk.names(), isAtEnd = walk.read.at === walk.bytes.length;
  if (isRaw) return names.some((it) => known.of(it.module, it.name).severity === "danger");
  const isWhole = walk.isEnded && (!walk.isNumbered || isAtEnd);
  return names.length > 0 || isWhole || walk.isMisread || (isCut && walk.read.at === Infinity);
}

// The imports of a pickle, and those behind the place where it is refused.
function importsOf({ pairs, reason }, walk, isClaimed) {
  if (walk === null || pairs === null) return pairs;
  const numbered = reason === "ExtensionCode" ? [{ module: null, name: null, count: 1 }] : [];
  const front = isClaimed ? pairs : [];
  return [...front, ...without([...numbered, ...walk.names()], front)];
}

// Whether what can't be read stands where a reader that goes on takes the next pickle. (Of one byte
// nothing is known: it may begin what is packed.)
function isBehind({ isRow, isTorch, kind, blob }, offset, number) {
  const isNext = isRow && kind !== "npy" && (!isTorch || number <= TORCH_PICKLES);
  return isNext && number > 1 && blob.size - offset > 1;
}

function frontOf(offset) {
  const end = Math.min(offset + 2, checker.size);
  return checker.memory().slice(checker.at + offset, checker.at + end);
}

// An import as Python 3 names it.
function renamedToday(it) {
  if (it.module === null) return it;
  const [now, name] = known.renaming.renamed(it.module, it.name);
  return { ...it, module: now, name };
}

function startsWith(offset, front) {
  const bytes = checker.memory().subarray(checker.at + offset, checker.at + checker.size);
  return front.every((byte, at) => bytes[at] === byte);
}

// The verdict under the list alone, unless the list permits what a guard refuses by default.
function underList({ offset, costs }) {
  if (list.status !== YES) return { status: NO_LIST, reason: list.reason };
  const pairs = isOld(frontOf(offset)) ? list.spelled : list.pairs;
  const verdict = checker.check(offset, pairs, list, list.own);
  if (verdict.status !== YES || !costs) return verdict;
  const guarded = checker.check(offset, pairs, list, list.usual);
  return guarded.status === YES ? verdict : { ...guarded, isUsual: true };
}

async function judgeAgain(source) {
  setList(source);
  for (const [id, part] of parts.entries()) {
    if (part.problem || part.finding || part.isOther || part.isKept) continue;
    await load(part.blob);
    part.verdict = underList(part);
    post("verdict", { id, verdict: part.verdict });
  }
  post("done", {});
}

async function sendListing(id) {
  const part = parts[id];
  try {
    await load(part.blob);
    const bytes = checker.listing(part.offset);
    const transfer = bytes ? [bytes.buffer] : [];
    self.postMessage({ kind: "listing", id, bytes }, transfer);
  } catch (error) {
    post("listing", { id, bytes: null, problem: afterFault(error) });
  }
}

async function answer({ kind, code, told, source, files, id }) {
  if (kind === "begin") {
    module = await WebAssembly.compile(code);
    checker = new Checker(module);
    [said, known, foreign] = [told.costs, new Known(told.known), new Foreign(told.formats)];
    learnLayouts(checker);
    learnMembers(told.members);
    setList(source);
    post("ready", {});
  } else if (kind === "files") {
    await readFiles(files);
  } else if (kind === "list") {
    await judgeAgain(source);
  } else if (kind === "listing") {
    await sendListing(id);
  }
}

// One message after the other: each may take the module's memory. Of lists only the newest counts.
let last = Promise.resolve();
let newest = null;
self.onmessage = ({ data }) => {
  if (data.kind === "list") newest = data;
  last = last
    .then(() => (data.kind === "list" && data !== newest ? undefined : answer(data)))
    .catch((error) => post("failed", { why: afterFault(error) }));
};
