// Cuts the arrays out of a joblib file, so that a pickle is left that the checker can judge: the
// rules are those of `storklocker scan`. Each array stands behind the BUILD of a wrapper; there the
// wrapper is called with a buffer instead. All that joblib doesn't write is a fault.

import { ANY, Follower, fail, isItems, isMade, isName, made } from "./following.js";

const CALL = Uint8Array.of(0x97, 0x85, 0x52);
const KEYS = ["allow_mmap", "dtype", "order", "shape", "subclass"];
const ALIGNED = "numpy_array_alignment_bytes", ALIGNMENT = 16, MOST_AXES = 64;
const MOST_KEYS = 128, DEEPEST = 8, HAS_OBJECTS = 1;
const SIZES = { b: [1], i: [1, 2, 4, 8], u: [1, 2, 4, 8], f: [2, 4, 8, 12, 16], c: [8, 16, 24, 32],
  M: [8], m: [8] };

// Whether this is joblib's wrapper of arrays.
export function isWrapper({ module, name }) {
  return name === "NumpyArrayWrapper"
    && ["joblib.numpy_pickle", "sklearn.externals.joblib.numpy_pickle"].includes(module);
}

const isCount = (it) => Number.isSafeInteger(it) && it >= 0;

// Follows the first pickle of a file. `lengthOf` gives the length of the pickle at an offset, for
// arrays of objects; 0 if it is refused.
export class Cutter extends Follower {
  constructor(bytes, lengthOf) {
    super(bytes, 0);
    Object.assign(this, { lengthOf, parts: [], nested: [], start: 0 });
  }

  // The pickle that is left, the places of those of objects, and where it ends.
  cut() {
    this.follow();
    this.keep();
    if (this.read.at < this.bytes.length) fail("bytes follow it");
    return { left: new Blob(this.parts), nested: this.nested };
  }

  keep() {
    this.parts.push(this.bytes.slice(this.start, this.read.at));
    this.start = this.read.at;
  }

  // A wrapper that isn't built, and the class, go nowhere but where joblib puts them.
  hide(values) {
    for (const value of values) {
      const first = Array.isArray(value) && value.length ? value[0] : value;
      const isBare = isMade(value) && isWrapper(value) && !value.isBuilt;
      if ((isName(first) && isWrapper(first)) || isBare) {
        fail("a wrapper is used as joblib never uses one");
      }
    }
  }

  given() {
    fail("an instruction that is never written");
  }

  // The class may be the first of three, which are the arguments of a call.
  tuple(values) {
    this.hide(values.length === 3 ? values.slice(1) : values);
    if (values.length === 3 && isMade(values[0])) this.hide([values[0]]);
    this.stack.push(values);
  }

  name(module, name) {
    if (typeof module !== "string" || typeof name !== "string") fail("a name that isn't shown");
    const isOld = /^(sklearn\.externals\.)?joblib\./.test(`${module}.`);
    if (isOld && !isWrapper({ module, name })) {
      fail(`${module}.${name}, as joblib before 0.10 wrote it`);
    }
    super.name(module, name);
  }

  make(by, words) {
    this.hide([words]);
    if (isName(by) && isWrapper(by) && !(Array.isArray(words) && words.length === 0)) {
      fail("a wrapper with arguments");
    }
    this.stack.push(isName(by) ? made(by, words) : ANY);
  }

  reduce(by, words) {
    const first = Array.isArray(words) && words.length === 3 ? words[0] : null;
    const isOld = isName(by) && by.name === "_reconstructor"
      && ["copyreg", "copy_reg"].includes(by.module);
    if (isOld && isName(first) && isWrapper(first)) {
      this.stack.push(made(first, []));
      return;
    }
    this.hide([by, words]);
    this.stack.push(isName(by) ? made(by, words) : ANY);
  }

  build() {
    const state = this.pop(), it = this.stack.at(-1);
    this.hide([state]);
    if (!isMade(it)) this.hide([it]);
    else if (!isWrapper(it)) {
      if (isType(it) && it.state !== null) fail("the state of a type is set twice");
      it.state = state;
    } else {
      if (this.read.at < this.frame || it.isBuilt) fail("an array inside a frame, or built twice");
      it.isBuilt = true;
      this.stack[this.stack.length - 1] = ANY;
      this.keep();
      this.passArray(state);
      this.start = this.read.at;
      this.parts.push(CALL);
    }
  }

  items(values) {
    this.hide(values);
    const held = this.stack.at(-1);
    if (!isItems(held)) return;
    for (let at = 0; at + 1 < values.length; at += 2) {
      if (typeof values[at] !== "string" || held.size > MOST_KEYS) held.isUnknown = true;
      held.set(values[at], values[at + 1]);
    }
  }

  passArray(state) {
    const keys = isItems(state) && !state.isUnknown ? [...state.keys()].sort() : [];
    if (keys.filter((it) => it !== ALIGNED).join() !== KEYS.join()) {
      fail("the state of a wrapper isn't what joblib writes");
    }
    const shape = state.get("shape"), alignment = state.get(ALIGNED) ?? null;
    const isShape = Array.isArray(shape) && shape.every(isCount) && shape.length <= MOST_AXES;
    if (!isShape || !["C", "F"].includes(state.get("order"))
      || ![null, ALIGNMENT].includes(alignment)) {
      fail("the shape, order or alignment of an array");
    }
    const item = checkedItem(state.get("dtype"), 0);
    if (item.hasObjects) {
      const size = this.lengthOf(this.read.at);
      if (!size) fail("the pickle of an array of objects is refused");
      this.nested.push([this.read.at, this.read.at + size]);
      this.pass(size);
      return;
    }
    if (alignment !== null) this.passPadding();
    this.pass(shape.reduce((size, count) => size * count, item.size));
  }

  passPadding() {
    const count = this.bytes[this.read.at] ?? ALIGNMENT + 1;
    const padding = this.bytes.subarray(this.read.at + 1, this.read.at + 1 + count);
    if (count > ALIGNMENT || !padding.every((byte) => byte === 0xff)) {
      fail("the alignment of an array");
    }
    this.pass(1 + count);
  }

  pass(size) {
    this.read.at += size;
    if (!(this.read.at <= this.bytes.length)) fail("it is truncated");
  }
}

function isType({ module, name }) {
  return module === "numpy" && name === "dtype";
}

// The bytes of an item of this type, and whether it has objects.
function checkedItem(kind, depth) {
  if (!isMade(kind) || !isType(kind)) fail("a type isn't written as NumPy writes it");
  if (kind.item === null) kind.item = checkedType(kind, depth);
  else if (!depth && kind.state[2] !== null) fail("a type contradicts itself");
  return kind.item;
}

function checkedType({ words, state }, depth) {
  if (!Array.isArray(words) || words.length !== 3 || typeof words[0] !== "string") {
    fail("a type isn't written as NumPy writes it");
  }
  const letter = words[0].slice(0, 1), digits = words[0].slice(1);
  if (depth > DEEPEST || !Array.isArray(state) || state.length < 8 || state.length > 9) {
    fail("a type without a state");
  }
  let hasObjects = letter === "O" && ["", "4", "8"].includes(digits);
  let size = hasObjects ? 8 : Number(digits);
  if (hasObjects || (SIZES[letter] ?? []).map(String).includes(digits)) {
    if (state.slice(2, 5).some((it) => it !== null)) fail("a plain type with fields");
  } else {
    if (!["S", "U", "V"].includes(letter) || !/^[0-9]+$/.test(digits)) fail("an unknown type");
    size *= letter === "U" ? 4 : 1;
    if (state[5] !== size || (state[2] !== null && !depth)) fail("a type contradicts itself");
    hasObjects = partsHaveObjects(state, depth);
  }
  if (!isCount(state[7]) || Boolean(state[7] & HAS_OBJECTS) !== hasObjects) {
    fail("the flags of a type contradict it");
  }
  return { size, hasObjects };
}

function partsHaveObjects(state, depth) {
  let found = false;
  if (state[2] !== null) {
    const base = Array.isArray(state[2]) && state[2].length ? state[2][0] : null;
    found = checkedItem(base, depth + 1).hasObjects;
  }
  if (state[4] !== null) {
    if (!isItems(state[4]) || state[4].isUnknown) fail("the fields of a type aren't known");
    for (const field of state[4].values()) {
      if (!Array.isArray(field) || field.length < 2 || field.length > 3) {
        fail("a field of a type isn't as NumPy writes it");
      }
      found = checkedItem(field[0], depth + 1).hasObjects || found;
    }
  }
  return found;
}
