// The proved checker, as a module of WebAssembly. Nothing here decides an answer: bytes are put
// into the module's memory, one of its functions is called, and what it wrote there is read.
//
//     const checker = new Checker(new WebAssembly.Module(bytesOfTheModule));
//     checker.load(pickle);
//     const list = checker.list(text);
//     const verdict = checker.check(0, list.pairs, list);

export const REASONS = [
  "", "Source", "Truncated", "UnknownOpcode", "BadArgument", "TooLarge", "ExtensionCode",
  "UnsupportedProtocol", "BrokenFrame", "MissingMark", "MissingItem", "MissingMemo", "OddItems",
  "WrongClass", "NotText", "UnknownImport", "ImportOffList", "LeftOver", "OutOfMemory", "NotAscii",
  "DeepKey", "HeavyKeys", "ManyKeys", "MuchMemory", "BuildsImport",
];
export const FAULTS = [
  "", "Syntax", "Shape(Version)", "Shape(TopKey)", "Shape(Imports)", "Shape(Module)", "Shape(Name)",
  "Version", "OutOfMemory", "Shape(Limits)", "Shape(LimitKey)", "Shape(Limit)", "Shape(Rules)",
  "Shape(RuleKey)", "Shape(Rule)", "Shape(Substitutes)", "Shape(Substitute)",
];
export const YES = 0, NO = 1, NO_LIST = 2;

const PASSED = 2n ** 40n; // payloads that are passed over may have any length
const NUMBERS = 1_000_000n; // the greatest memo number, unless the list has a limit of its own
const ANY_NUMBER = 2n ** 32n - 1n;
const UNKNOWN = 2n ** 64n - 1n;
const LIMITS = ["counted", "stack", "memo", "passed", "numbers"];
const STANDARD = {
  counted: 16_777_216n, stack: 1_000_000n, memo: 1_000_000n, passed: PASSED, numbers: NUMBERS,
};
const WIDEST = {
  counted: ANY_NUMBER, stack: ANY_NUMBER, memo: ANY_NUMBER, passed: PASSED, isLarge: true,
};
// the limits on what loading costs, each with its bytes; null is none
const COSTS = [["levels", 4], ["weight", 4], ["work", 8], ["clash", 8], ["memory", 8]];
const BUILDS = 32; // where they say whether BUILD may take what was imported
const SETTINGS = 64, VERDICT = 64, COSTING = 40, PAIR = 32, NAMES = 1 << 17;
const FIRST_NAMES = 1 << 16, MOST_NAMES = 1 << 26;
const LISTING_MEMORY = 1 << 29;

const text = new TextDecoder("utf-8", { ignoreBOM: true }), encoder = new TextEncoder();
export const FREE = { builds: true }; // nothing that loading costs is too much

export class OutOfMemory extends Error {}

export class Checker {
  constructor(module) {
    this.exports = new WebAssembly.Instance(module, {}).exports;
    this.start = this.exports.reserve(0n);
  }

  // Makes these the bytes that are checked, and returns whether they fit.
  load(bytes) {
    this.exports.release(this.start);
    this.size = bytes.length;
    this.at = this.exports.reserve(BigInt(bytes.length));
    if (this.at === 0) return false;
    this.memory().set(bytes, this.at);
    this.free = this.exports.reserve(0n);
    return true;
  }

  memory() {
    return new Uint8Array(this.exports.memory.buffer);
  }

  room(size) {
    const at = this.exports.reserve(BigInt(size));
    if (at === 0) throw new OutOfMemory("there is no memory left");
    return at;
  }

  // Calls with room for what is written; all that is taken is then given back.
  call(run) {
    try {
      const settings = this.room(SETTINGS + VERDICT + 8 + 2 * COSTING);
      const [verdict, wanted] = [settings + SETTINGS, settings + SETTINGS + VERDICT];
      const [costs, bill] = [wanted + 8, wanted + 8 + COSTING];
      this.memory().fill(0, settings, bill + COSTING);
      return run({ settings, verdict, wanted, costs, bill });
    } finally {
      this.exports.release(this.free === undefined ? this.start : this.free);
    }
  }

  settings(at, limits) {
    const view = new DataView(this.exports.memory.buffer, at, SETTINGS);
    view.setBigUint64(0, BigInt(SETTINGS), true);
    LIMITS.forEach((name, place) => view.setBigUint64(8 + 8 * place, limits[name], true));
    view.setUint32(48, limits.oldStrings || 0, true);
    view.setUint32(56, limits.isLarge ? 1 : 0, true);
  }

  // The limits under which a pickle is looked at without a list: no pickler writes a memo number
  // that is greater than the bytes in front of it.
  widest(offset) {
    const size = BigInt(this.size - offset);
    return { ...WIDEST, numbers: size > NUMBERS ? size : NUMBERS };
  }

  // Writes limits on costs; `builds` says whether BUILD may take what was imported.
  putCosts(at, costs) {
    const view = new DataView(this.exports.memory.buffer, at, COSTING);
    let place = 0;
    for (const [name, size] of COSTS) {
      const most = BigInt.asUintN(8 * size, UNKNOWN);
      const isNone = costs[name] === undefined || costs[name] === null;
      const limit = isNone ? most : BigInt(costs[name]);
      if (size === 4) view.setUint32(place, Number(limit < most ? limit : most), true);
      else view.setBigUint64(place, limit, true);
      place += size;
    }
    view.setUint32(BUILDS, costs.builds ? 1 : 0, true);
  }

  // Limits on costs, or a bill.
  costsAt(at) {
    const view = new DataView(this.exports.memory.buffer, at, COSTING);
    let place = 0;
    const read = (size) => {
      place += size;
      const from = place - size;
      return size === 4 ? BigInt(view.getUint32(from, true)) : view.getBigUint64(from, true);
    };
    const found = Object.fromEntries(COSTS.map(([name, size]) => [name, read(size)]));
    return { ...found, builds: view.getUint32(BUILDS, true) === 1 };
  }

  verdict(at, room) {
    const view = new DataView(this.exports.memory.buffer, at, VERDICT);
    const word = (place) => view.getUint32(place, true);
    const long = (place) => Number(view.getBigUint64(place, true));
    const verdict = { status: word(0), number: word(8), at: long(16), taken: long(24) };
    const texts = verdict.status === NO_LIST ? FAULTS : REASONS;
    verdict.reason = word(4) in texts ? texts[word(4)] : `${word(4)}`;
    verdict.imports = long(32);
    const [module, name] = [long(40), long(48)];
    if (word(12) === 1 && module + name <= NAMES) {
      verdict.pair = [this.text(room, module), this.text(room + module, name)];
    }
    return verdict;
  }

  text(at, length) {
    return text.decode(this.memory().slice(at, at + length));
  }

  // The pairs and limits of a list file, or what is wrong with it.
  list(source) {
    const found = this.call((places) => {
      const pairs = this.records(this.reading(source, places), places.wanted);
      return { ...this.verdict(places.verdict, 0), pairs, ...this.limitsAt(places.settings) };
    });
    if (found.status !== YES) return found;
    const said = this.said(source);
    const numbers = said.numbers ? found.numbers : NUMBERS;
    return { ...found, numbers, passed: said.limits ? found.passed : PASSED };
  }

  reading(source, places) {
    const bytes = this.put(encoder.encode(source));
    this.settings(places.settings, STANDARD);
    return (room, size) => this.exports.pkguard_read_list(
      bytes.at, bytes.length, room, BigInt(size), places.settings, places.wanted, places.verdict);
  }

  limitsAt(at) {
    const view = new DataView(this.exports.memory.buffer, at, SETTINGS);
    const word = (name) => view.getBigUint64(8 + 8 * LIMITS.indexOf(name), true);
    const found = Object.fromEntries(LIMITS.map((name) => [name, word(name)]));
    return { ...found, isLarge: view.getUint32(56, true) === 1 };
  }

  // Which limits a list file has whose defaults are this page's own, and its substitutes.
  said(source) {
    return this.call((places) => {
      const bytes = this.put(encoder.encode(source));
      const read = (room, size) => this.exports.pkguard_list_told(
        bytes.at, bytes.length, room, BigInt(size), places.costs, places.wanted, places.verdict);
      const substitutes = this.records(read, places.wanted);
      const view = new DataView(this.exports.memory.buffer, places.costs, COSTING);
      const [limits, numbers] = [0, 4].map((place) => view.getUint32(place, true) === 1);
      return { limits, numbers, substitutes };
    });
  }

  // These limits on costs, in place of which stands what a list file says.
  costs(source, usual) {
    return this.call((places) => {
      const bytes = this.put(encoder.encode(source));
      this.putCosts(places.costs, usual);
      this.exports.pkguard_list_costs(bytes.at, bytes.length, places.costs, places.verdict);
      return this.costsAt(places.costs);
    });
  }

  put(bytes) {
    const at = this.room(bytes.length);
    this.memory().set(bytes, at);
    return { at, length: BigInt(bytes.length) };
  }

  // Puts pairs where the checker finds them.
  putPairs(pairs) {
    const at = this.room(PAIR * pairs.length || 1);
    for (const [place, { module, name }] of pairs.entries()) {
      for (const [word, text] of [module, name].entries()) {
        const bytes = this.put(encoder.encode(text));
        const view = new DataView(this.exports.memory.buffer, at + PAIR * place + 16 * word, 16);
        view.setBigUint64(0, BigInt(bytes.at), true);
        view.setBigUint64(8, bytes.length, true);
      }
    }
    return { at, length: BigInt(pairs.length) };
  }

  // The verdict on the pickle at an offset, under pairs, limits, and limits on costs.
  check(offset, pairs, limits, costs = FREE) {
    return this.checking(pairs, limits, costs, (verdict) => verdict(offset));
  }

  // Calls with what gives the verdict on the pickle at an offset.
  checking(pairs, limits, costs, run) {
    return this.call((places) => {
      const [list, room] = [this.putPairs(pairs), this.room(NAMES)];
      this.settings(places.settings, limits);
      this.putCosts(places.costs, costs);
      const free = this.exports.reserve(0n);
      return run((offset) => {
        this.exports.release(free);
        this.exports.pkguard_check_within(
          list.at, list.length, places.settings, places.costs, this.at + offset,
          BigInt(this.size - offset), room, BigInt(NAMES), places.verdict);
        return this.verdict(places.verdict, room);
      });
    });
  }

  // The verdict on the pickle at an offset with every import permitted, within limits on costs; and
  // what loading it costs, if it is accepted.
  loading(offset, costs = FREE) {
    return this.call((places) => {
      this.settings(places.settings, this.widest(offset));
      this.putCosts(places.costs, costs);
      this.exports.pkguard_imports_loading(
        places.settings, places.costs, this.at + offset, BigInt(this.size - offset), places.bill,
        0n, places.wanted, places.verdict, places.bill);
      return { ...this.verdict(places.verdict, 0), bill: this.costsAt(places.bill) };
    });
  }

  // The imports of the pickle at an offset, each once with how often, and the verdict with every
  // import permitted.
  imports(offset, limits = this.widest(offset)) {
    return this.call((places) => {
      this.settings(places.settings, limits);
      const read = (room, size) => this.exports.pkguard_imports(
        places.settings, this.at + offset, BigInt(this.size - offset), room, BigInt(size),
        places.wanted, places.verdict);
      const pairs = this.records(read, places.wanted);
      return { ...this.verdict(places.verdict, 0), pairs };
    });
  }

  // How the argument of an opcode lies, as a number; null if no opcode has this code.
  layout(code) {
    this.load(Uint8Array.of(code));
    const isNone = this.imports(0).reason === "UnknownOpcode";
    return isNone ? null : this.exports.pkguard_layout(code);
  }

  // What a call writes as records, or null if that is too much.
  records(read, wanted) {
    const first = this.room(FIRST_NAMES);
    read(first, FIRST_NAMES);
    const size = Number(new DataView(this.exports.memory.buffer).getBigUint64(wanted, true));
    if (size <= FIRST_NAMES) return this.counted(first, first + size);
    if (size > MOST_NAMES) return null;
    const room = this.room(size);
    read(room, size);
    return this.counted(room, room + size);
  }

  counted(from, to) {
    const view = new DataView(this.exports.memory.buffer);
    const found = new Map();
    let at = from;
    const next = () => {
      const length = view.getBigUint64(at, true);
      at += 8 + (length === UNKNOWN ? 0 : Number(length));
      return length === UNKNOWN ? null : this.text(at - Number(length), Number(length));
    };
    while (at < to) {
      const pair = [next(), next()];
      const key = JSON.stringify(pair);
      const known = found.get(key);
      if (known) known.count += 1;
      else found.set(key, { module: pair[0], name: pair[1], count: 1 });
    }
    return [...found.values()];
  }

  // The listing of the pickle at an offset, as bytes; null if it is too long. Each open mark makes
  // a line longer, so a small pickle may have a very long listing.
  listing(offset) {
    this.exports.limit(BigInt(this.free + LISTING_MEMORY));
    try {
      return this.call((places) => {
        const first = Math.min(LISTING_MEMORY / 4, 64 * (this.size - offset) + 4096);
        const tried = this.listed(offset, first, places.wanted);
        if (tried.bytes || tried.size > LISTING_MEMORY / 4) return tried.bytes;
        this.exports.release(tried.room);
        return this.listed(offset, tried.size, places.wanted).bytes;
      });
    } finally {
      this.exports.limit(UNKNOWN);
    }
  }

  listed(offset, size, wanted) {
    const room = this.room(size);
    const length = BigInt(this.size - offset);
    const status = this.exports.pkpage_listing(
      this.at + offset, length, room, BigInt(size), wanted);
    const needed = Number(new DataView(this.exports.memory.buffer).getBigUint64(wanted, true));
    if (status === 2) return { bytes: null, size: Infinity, room };
    return { bytes: needed <= size ? this.memory().slice(room, room + needed) : null,
      size: needed, room };
  }
}
