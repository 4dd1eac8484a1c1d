// Checks pickles by the proved checker, as a module of WebAssembly; index.d.ts documents the calls.

import { readFileSync } from "fs";
import { setFlagsFromString } from "v8";
import { Checker, FREE, NO, OutOfMemory, YES } from "./checker.mjs";

const MOST_MEMORY = 1 << 28; // with more the instance is given up, because its memory never shrinks
const NUMBERED = ["UnknownOpcode", "UnsupportedProtocol", "MissingMemo"];
const OLD_STRINGS = ["unknown", "ascii", "bytes"];
const ENDS = { levels: 1_023, weight: 1_048_575 }; // from here on no key exceeds a limit
const COSTS = ["levels", "weight", "work", "clash", "memory"];
const STANDARD = {
  counted: 16_777_216, stack: 1_000_000, memo: 1_000_000, passed: 16_777_216, numbers: 1_000_000,
};

// Before Node 16, numbers of 64 bits pass to and from WebAssembly only with a flag.
if (parseInt(process.versions.node, 10) < 16) setFlagsFromString("--experimental-wasm-bigint");
const compiled = new WebAssembly.Module(readFileSync(new URL("storklocker.wasm", import.meta.url)));
const text = new TextDecoder("utf-8", { ignoreBOM: true }), encoder = new TextEncoder();
let checker = null;

// What `run` makes of an instance of the checker. One that has failed, or has grown, isn't used
// again.
function called(run) {
  const mine = checker || new Checker(compiled);
  checker = null;
  const answer = run(mine);
  if (mine.memory().length <= MOST_MEMORY) checker = mine;
  return answer;
}

function load(it, pickle) {
  if (!(pickle instanceof Uint8Array)) throw new TypeError("a pickle must be a Uint8Array");
  if (!it.load(pickle)) throw new OutOfMemory("there is no memory for the pickle");
}

function quoted(name) {
  const bytes = Array.from(encoder.encode(name), (byte) => {
    const letter = String.fromCharCode(byte);
    const isPlain = byte >= 32 && byte < 127 && letter !== '"' && letter !== "\\";
    return isPlain ? letter : `\\x${byte.toString(16).padStart(2, "0")}`;
  });
  return `"${bytes.join("")}"`;
}

export class Refusal extends Error {
  constructor(said, pickles) {
    const { at, reason, number, pair } = said;
    const hasNumber = NUMBERED.includes(reason);
    const told = pair ? `(${pair.map(quoted).join(",")})` : hasNumber ? `(${number})` : "";
    const place = pickles === undefined ? "" : `in pickle ${pickles} `;
    super(`no ${place}at ${at}: ${reason}${told}`);
    this.name = "Refusal";
    this.at = at;
    this.reason = reason;
    this.number = hasNumber ? number : undefined;
    this.pair = pair && { module: pair[0], name: pair[1] };
    this.pickles = pickles;
  }
}

export class ListFault extends Error {
  constructor(reason) {
    super(`list: ${reason}`);
    this.name = "ListFault";
    this.reason = reason;
  }
}

// Limits as the checker takes them: those on what loading costs are apart.
function settings(limits) {
  const given = { ...STANDARD, ...limits };
  const oldStrings = OLD_STRINGS.indexOf(given.oldStrings || "unknown");
  if (oldStrings < 0) throw new TypeError(`oldStrings must be one of ${OLD_STRINGS.join(", ")}`);
  for (const name of [...Object.keys(STANDARD), ...COSTS]) {
    if (given[name] < 0) throw new RangeError(`${name} must not be negative`);
  }
  const words = Object.keys(STANDARD).map((name) => [name, BigInt(given[name])]);
  const costs = { builds: given.builds !== false };
  for (const name of COSTS) {
    if (given[name] !== undefined && !(given[name] >= ENDS[name])) costs[name] = given[name];
  }
  return [{ ...Object.fromEntries(words), isLarge: Boolean(given.large), oldStrings }, costs];
}

function verdict(said, pickles) {
  if (said.status === YES) return said;
  if (said.status === NO) throw new Refusal(said, pickles);
  throw new Error("the checker doesn't know these settings");
}

// The limits of a list file that was read.
function limitsOf(found, costs, said) {
  const limits = { large: found.isLarge, oldStrings: "unknown", builds: costs.builds };
  for (const name of Object.keys(STANDARD)) limits[name] = Number(found[name]);
  if (!said.limits) limits.passed = STANDARD.passed;
  for (const name of COSTS) {
    const none = BigInt.asUintN(ENDS[name] ? 32 : 64, -1n);
    if (costs[name] !== none) limits[name] = Number(costs[name]);
  }
  return limits;
}

export class List {
  constructor(pairs, limits = STANDARD, substitutes = []) {
    for (const name of pairs.flatMap((it) => [it.module, it.name])) {
      const isText = text.decode(encoder.encode(name)) === name;
      if (!isText) throw new TypeError(`no text: ${quoted(name)}`);
    }
    this.pairs = pairs;
    this.limits = { ...limits };
    this.substitutes = substitutes;
  }

  static of(imports) {
    return new List(Object.entries(imports).flatMap(([module, names]) => {
      if (!Array.isArray(names)) throw new TypeError("the names of a module must be an array");
      return names.map((name) => ({ module, name }));
    }));
  }

  static parse(source) {
    return called((it) => {
      const found = it.list(source);
      if (found.status !== YES) throw new ListFault(found.reason);
      const said = it.said(source);
      if (!found.pairs || !said.substitutes) throw new RangeError("the list is too long");
      const limits = limitsOf(found, it.costs(source, FREE), said);
      const substitutes = said.substitutes.map((pair) => [pair.module, pair.name]);
      const pairs = found.pairs.map(({ module, name }) => ({ module, name }));
      return new List(pairs, limits, substitutes);
    });
  }

  check(pickle) {
    return called((it) => {
      load(it, pickle);
      const { taken, imports } = verdict(it.check(0, this.pairs, ...settings(this.limits)));
      return { taken, imports, pickles: 1 };
    });
  }

  checkStream(stream) {
    return called((it) => {
      load(it, stream);
      let taken = 0, imports = 0, pickles = 0;
      return it.checking(this.pairs, ...settings(this.limits), (verdictAt) => {
        do {
          const said = verdictAt(taken);
          const one = verdict({ ...said, at: said.at + taken }, pickles);
          taken += one.taken;
          imports += one.imports;
          pickles += 1;
        } while (taken < stream.length);
        return { taken, imports, pickles };
      });
    });
  }
}

export function imports(pickle, limits = STANDARD) {
  return called((it) => {
    load(it, pickle);
    const { pairs, ...said } = it.imports(0, settings(limits)[0]);
    if (pairs === null) throw new RangeError("the imports need too many bytes");
    return { found: pairs, refusal: said.status === YES ? null : new Refusal(said) };
  });
}

export function dis(pickle) {
  return called((it) => {
    load(it, pickle);
    const listing = it.listing(0);
    if (listing === null) throw new RangeError("the listing is too long");
    return text.decode(listing);
  });
}
