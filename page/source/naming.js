// What the most lenient of CPython's readers imports, which goes on where the checker doesn't: the
// rules are those of `storklocker scan`.

import { ANY, Follower, NotFollowed, fail, isMade, isName, made } from "./following.js";
import { isOld } from "./renaming.js";

const GLOBAL = "c".charCodeAt(0), INST = "i".charCodeAt(0), SCALAR = "numpy.core.multiarray.scalar";
const EXTENSIONS = [0x82, 0x83, 0x84];
const FRAMED = 8; // the bytes of a frame's length
const MODULE = /^(?:[\p{L}\p{M}\p{N}\p{Pc}-]+(?:\.(?!$)|$))+$/u;
const latin = new TextDecoder("latin1");

const isText = (it) => typeof it === "string" || it === ANY;
const isCalled = (it) => it === ANY || isName(it) || isMade(it);

// Follows pickles for the names that they import.
export class Naming extends Follower {
  // renaming: how Python 3 names what Python 2 did; texts: the names that may answer one, or null
  // if each may.
  constructor(bytes, at, renaming, texts = null) {
    super(bytes, at);
    Object.assign(this, { renaming, texts, found: new Map() });
    Object.assign(this, { isMisread: false, isNumbered: false });
  }

  // What is registered under a number is imported by some instructions.
  given(count, ...pushed) {
    if (EXTENSIONS.includes(this.read.code)) {
      const width = this.read.at - this.read.from, number = this.read.number(this.read.from, width);
      if (number === 0 || number >= 2 ** 31) fail("no such number");
      this.isNumbered = true;
    }
    super.given(count, ...pushed);
  }

  // Follows the next pickle, as an Unpickler does that keeps its memo. Returns whether it ends.
  again() {
    Object.assign(this, { stack: [], frame: -1 });
    this.isOld = isOld(this.bytes.subarray(this.read.at, this.read.at + 2));
    try {
      this.follow();
      this.pop();
      return true;
    } catch (error) {
      if (!(error instanceof NotFollowed)) throw error;
      this.crosses();
      if (this.read.at === Infinity) this.cut();
      return false;
    }
  }

  step() {
    this.crosses();
    super.step();
  }

  // The reader in C drops the front of what crosses a frame's end.
  crosses() {
    this.isMisread ||= this.read.start < this.frame && this.frame < this.read.at;
  }

  // (The reader in Python says nothing of what a frame lacks.)
  begin(end) {
    if (end > this.bytes.length) return;
    this.isMisread ||= this.read.at - FRAMED < this.frame && this.frame !== end;
    this.frame = end;
  }

  // The names, each as `{ module, name, count }`; a hidden one has null for both.
  names() {
    return [...this.found.values()];
  }

  // Either line of an import may be the last one, of which the reader in Python takes a byte off.
  cut() {
    if (this.read.code !== GLOBAL && this.read.code !== INST) return;
    const lines = latin.decode(this.bytes.subarray(this.read.from)).split("\n");
    lines.push(lines.pop().slice(0, -1));
    try {
      this.name(lines[0], lines[1] ?? "");
    } catch (error) {
      if (!(error instanceof NotFollowed)) throw error;
    }
  }

  name(module, name) {
    if (!isText(module) || !isText(name)) fail("a name that is no text");
    if (module === ANY || name === ANY) {
      if (!this.isNumbered) this.add({ module: null, name: null });
      this.stack.push(ANY);
      return;
    }
    if (!MODULE.test(module.split("\0", 1)[0])) fail("no module has such a name");
    const [now, its] = this.isOld ? this.renaming.renamed(module, name) : [module, name];
    this.add({ module: now, name: its });
    if (name === "") fail("no attribute has an empty name");
    this.stack.push(this.texts === null ? ANY : { isName: true, module: now, name: its });
  }

  add(pair) {
    const key = JSON.stringify([pair.module, pair.name]);
    if (!this.found.has(key)) this.found.set(key, { ...pair, count: 1 });
  }

  // What a call makes, by which name.
  reduce(called, words) {
    if (this.texts !== null && !isCalled(called)) fail("it can't be called");
    const isAny = this.texts === null || this.mayBeText(called, words);
    this.stack.push(isAny ? ANY : made(called, words));
  }

  // Whether that may be a text. (Of an object a scalar of NumPy is that.)
  mayBeText(called, words) {
    const name = `${called.module}.${called.name}`;
    if (name === SCALAR && Array.isArray(words)) return words.slice(1, 2).some(isText);
    return isName(called) && this.texts.has(name);
  }

  make(called, words) {
    this.reduce(called, words);
  }

  makeNamed() {
    const words = this.pop();
    this.reduce(this.pop(), words);
  }

  instance() {
    this.name(...this.spelled());
    const called = this.pop();
    this.reduce(called, this.toMark());
  }

  instanceOf() {
    const [called, ...words] = this.toMark();
    this.reduce(called === undefined ? fail("nothing is called") : called, words);
  }
}
