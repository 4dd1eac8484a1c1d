// The instructions of a pickle, one after the other, without running them.

export class NotFollowed extends Error {}

// What follows each opcode, as the checker says: so many bytes, lines of 16 each, or from 64 on the
// bytes of a count; null if there is no such opcode.
const LINE = 16, COUNT = 64;
let layouts = [];

export function learnLayouts(checker) {
  layouts = Array.from({ length: 256 }, (_, code) => checker.layout(code));
}

// Reads one instruction after the other: `code`, and its argument from `from` to `at`.
export class Instructions {
  constructor(bytes, at = 0) {
    Object.assign(this, { bytes, at, code: 0, from: at, start: at });
  }

  number(from, size) {
    let made = 0;
    for (let place = size - 1; place >= 0; place -= 1) made = made * 256 + this.bytes[from + place];
    return made;
  }

  next() {
    this.start = this.at;
    this.code = this.bytes[this.at];
    const layout = layouts[this.code] ?? null;
    if (layout === null) throw new NotFollowed(`no opcode at ${this.at}`);
    this.at = this.from = this.start + 1;
    if (layout >= COUNT) {
      this.from += layout - COUNT;
      this.at = this.from + this.number(this.start + 1, layout - COUNT);
    } else if (layout < LINE) {
      this.at += layout;
    }
    for (let left = layout < COUNT ? layout : 0; left >= LINE; left -= LINE) {
      const end = this.bytes.indexOf(10, this.at);
      this.at = end < 0 ? Infinity : end + 1;
    }
    if (!(this.at <= this.bytes.length)) throw new NotFollowed("it is truncated");
  }

  // The argument's bytes.
  argument() {
    return this.bytes.subarray(this.from, this.at);
  }

  // The lines of the argument, as text.
  lines() {
    return new TextDecoder("latin1").decode(this.argument()).split("\n");
  }
}

// What handles each opcode: `{ "characters": handler }`, and another handler for the rest.
export function handlers(said, others) {
  const found = new Array(256).fill(others);
  for (const [codes, handler] of Object.entries(said)) {
    for (const code of codes) found[code.charCodeAt(0)] = handler;
  }
  return found;
}

// The number of the memo entry that an instruction names.
function memoNumber(read) {
  if (read.code !== GET && read.code !== PUT) return read.number(read.from, read.at - read.from);
  const digits = read.lines()[0].split("\0", 1)[0].trim().replace(/(?<=[0-9])_(?=[0-9])/g, "");
  return /^\+?[0-9]+$/.test(digits) ? Number(digits) : fail("no number");
}
const [GET, PUT, BUILD, POP] = [..."gpb0"].map((it) => it.charCodeAt(0));
export const STOP = ".".charCodeAt(0);

// Whether the pickle at an offset sets a state.
export function setsState(bytes, at) {
  const read = new Instructions(bytes, at);
  try {
    do read.next(); while (read.code !== STOP && read.code !== BUILD);
  } catch (error) {
    if (!(error instanceof NotFollowed)) throw error;
  }
  return read.code === BUILD;
}

// ---- what is on the stack and in the memo

// What may be a text, and what is none.
export const ANY = { isAny: true }, OTHER = { isOther: true };
const MARK = { isMark: true }, LONGEST = 1 << 12;

export function fail(why) {
  throw new NotFollowed(why);
}

export const isName = (it) => Boolean(it?.isName);
export const isMade = (it) => Boolean(it?.isMade);
export const isItems = (it) => it instanceof Map;

// What a call of a name makes.
export function made({ module, name }, words) {
  return { isMade: true, module, name, words, isBuilt: false, state: null, item: null };
}

// Follows a pickle from an offset on. Who looks for something in it derives a class.
export class Follower {
  constructor(bytes, at) {
    Object.assign(this, { bytes, stack: [], memo: new Map(), frame: 0 });
    this.read = new Instructions(bytes, at);
  }

  // Follows it up to STOP.
  follow() {
    for (this.read.next(); this.read.code !== STOP; this.read.next()) this.step();
  }

  step() {
    HANDLERS[this.read.code](this);
  }

  // A frame, which ends there.
  begin(end) {
    this.frame = end;
  }

  pop() {
    if (this.read.code !== POP || !this.stack.length) this.top();
    return this.stack.pop();
  }

  top() {
    const it = this.stack.at(-1);
    return it === undefined || it === MARK ? fail("an item is missing") : it;
  }

  toMark() {
    const place = this.stack.lastIndexOf(MARK);
    return place < 0 ? fail("no mark") : this.stack.splice(place).slice(1);
  }

  hidden(count, ...pushed) {
    for (let left = count; left > 0; left -= 1) this.hide([this.pop()]);
    this.stack.push(...pushed);
  }

  hiddenToMark(...pushed) {
    this.hide(this.toMark());
    this.stack.push(...pushed);
  }

  // The module and the name that the lines of an instruction have.
  spelled() {
    try {
      return utf8.decode(this.read.argument()).split("\n", 2);
    } catch {
      return fail("a name that isn't UTF-8");
    }
  }

  tupleOf(count) {
    const values = this.stack.splice(-count);
    if (values.length < count || values.includes(MARK)) fail("an item is missing");
    this.tuple(values);
  }

  // What a derived class judges: values go where they are followed no more; a persistent id, EXT
  // or a buffer gives something; a name is imported; a tuple is made, a dict gets items, an object
  // a state; a class makes an object, with named arguments or without; a function is called.

  hide() {}

  given(count, ...pushed) {
    this.hidden(count, ...pushed);
  }

  name(module, name) {
    this.stack.push({ isName: true, module, name });
  }

  tuple(values) {
    this.stack.push(values);
  }

  items(values) {
    this.hide(values);
  }

  build() {
    this.hidden(1);
    this.top();
  }

  make() {
    this.stack.push(ANY);
  }

  makeNamed(words) {
    this.hide([words]);
    this.hidden(2, ANY);
  }

  reduce() {
    this.stack.push(ANY);
  }

  instance() {
    this.given(0);
    this.hiddenToMark(ANY);
  }

  instanceOf() {
    this.given(0);
    this.hiddenToMark(ANY);
  }
}

// ---- numbers and texts

const utf8 = new TextDecoder("utf-8", { fatal: true, ignoreBOM: true });
const latin = new TextDecoder("latin1");
const NUMERALS = /^(?:[ \t\r\f\v0-9a-foxlA-FOXL_.+-]*|\s*[+-]*(?:nan|inf|infinity)\s*)$/i;
const QUOTED = /\\(?:x([0-9a-fA-F]{2})|([0-7]{1,3})|([^]))/g;
const RAW = /\\(?:u([0-9a-fA-F]{4})|U(000[0-9a-fA-F]{5}|0010[0-9a-fA-F]{4})|([^]))/g;
const LETTERS = { a: "\x07", b: "\b", f: "\f", n: "\n", r: "\r", t: "\t", v: "\v" };

function pushText({ stack, read }) {
  const bytes = read.argument();
  if (bytes.length > LONGEST) {
    stack.push(ANY);
    return;
  }
  try {
    stack.push(utf8.decode(bytes));
  } catch {
    // (readers take lone surrogates, of which no module has any in its name)
    stack.push(/\xed[\xa0-\xbf]/.test(binary(bytes)) ? OTHER : fail("a text that isn't UTF-8"));
  }
}

function binary(bytes) {
  return String.fromCharCode(...bytes);
}

function pushOldText({ stack, read }) {
  const bytes = read.argument();
  stack.push(bytes.length > LONGEST ? ANY : latin.decode(bytes));
}

function pushQuoted({ stack, read }) {
  const line = read.lines()[0].trim(), [quote] = line;
  if (line.length < 2 || !line.endsWith(quote) || !`'"`.includes(quote)) fail("no quotes");
  stack.push(line.slice(1, -1).replace(QUOTED, unescaped));
}

function unescaped(all, hex, octal, letter) {
  if (letter) return LETTERS[letter] ?? (`\\'"`.includes(letter) ? letter : all);
  return String.fromCharCode((hex ? parseInt(hex, 16) : parseInt(octal, 8)) & 255);
}

function pushRaw({ stack, read }) {
  stack.push(read.lines()[0].replace(RAW, (all, short, long, letter) => {
    if (letter) return letter === "u" || letter === "U" ? fail("an escape") : all;
    return String.fromCodePoint(parseInt(short ?? long, 16));
  }));
}

function pushNumber(isSigned) {
  return ({ stack, read }) => {
    const bytes = read.argument(), size = bytes.length;
    const made = read.number(read.from, size);
    const isNegative = isSigned && size > 0 && bytes[size - 1] > 0x7f;
    stack.push(size > 6 ? OTHER : isNegative ? made - 2 ** (8 * size) : made);
  };
}

function pushLine({ stack, read }) {
  const line = read.lines()[0].split("\0", 1)[0];
  if (!NUMERALS.test(line)) fail("no number");
  const digits = line.replace(/L$/, "");
  if (line === "00" || line === "01") stack.push(line === "01");
  else stack.push(/^-?[0-9]{1,15}$/.test(digits) ? Number(digits) : OTHER);
}

const HANDLERS = handlers({
  "(": ({ stack }) => stack.push(MARK), "0": (it) => it.pop(), "1": (it) => it.toMark(),
  "2": (it) => it.stack.push(it.top()),
  "N": ({ stack }) => stack.push(null), "\x88": ({ stack }) => stack.push(true),
  "\x89": ({ stack }) => stack.push(false), ")": ({ stack }) => stack.push([]),
  "}": ({ stack }) => stack.push(new Map()), "t": (it) => it.tuple(it.toMark()),
  "\x85": (it) => it.tupleOf(1), "\x86": (it) => it.tupleOf(2), "\x87": (it) => it.tupleOf(3),
  "c": (it) => it.name(...it.spelled()),
  "\x93": (it) => { const name = it.pop(); it.name(it.pop(), name); },
  "s": (it) => { const value = it.pop(), key = it.pop(); it.top(); it.items([key, value]); },
  "u": (it) => { const values = it.toMark(); it.top(); it.items(values); },
  "d": (it) => { const values = it.toMark(); it.stack.push(new Map()); it.items(values); },
  "\x81": (it) => { const words = it.pop(); it.make(it.pop(), words); },
  "R": (it) => { const words = it.pop(); it.reduce(it.pop(), words); }, "b": (it) => it.build(),
  "\x95": (it) => it.begin(it.read.at + it.read.number(it.read.from, 8)),
  "pqr": (it) => it.memo.set(memoNumber(it.read), it.top()),
  "\x94": (it) => it.memo.set(it.memo.size, it.top()),
  "ghj": (it) => {
    const number = memoNumber(it.read);
    it.stack.push(it.memo.has(number) ? it.memo.get(number) : fail("no memo entry"));
  },
  "\x82\x83\x84\x97": (it) => it.given(0, ANY), "\x98": (it) => { it.top(); it.given(0); },
  "P": (it) => (it.read.argument().some((byte) => byte > 0x7f) ? fail("an id") : it.given(0, ANY)),
  "Q": (it) => it.given(1, ANY), "i": (it) => it.instance(), "o": (it) => it.instanceOf(),
  "l\x91": (it) => it.hiddenToMark(OTHER), "e\x90": (it) => { it.hiddenToMark(); it.top(); },
  "a": (it) => { it.hidden(1); it.top(); }, "\x92": (it) => it.makeNamed(it.pop()),
  "\x80": ({ bytes, read }) => (bytes[read.from] > 5 ? fail("no such protocol") : undefined),
  "KM": pushNumber(false), "J\x8a\x8b": pushNumber(true), "FIL": pushLine,
  "X\x8c\x8d": pushText, "TU": pushOldText, "V": pushRaw, "S": pushQuoted,
}, ({ stack }) => stack.push(OTHER));
