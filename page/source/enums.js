// Members of enums, as Python 3.11.0 to 3.11.3 pickle them: by `getattr`, which is harmless if a
// pickle gets nothing else by it. The rules are those of `storklocker scan`.

import { ANY, Follower, NotFollowed, fail, isName } from "./following.js";
import { isOld } from "./renaming.js";

const NAME = /^[A-Za-z][A-Za-z0-9_]*$/, REDUCE = "R".charCodeAt(0);
const RECEIVING = [..."baesu\x90"].map((it) => it.charCodeAt(0));
const MEMBER = { isMember: true };

export const isGetattr = (it) => it?.module === "builtins" && it.name === "getattr";

class Members extends Follower {
  constructor(bytes, { renaming, enums }) {
    super(bytes, 0);
    Object.assign(this, { renaming, enums });
  }

  // Follows the next pickle, as an Unpickler does that keeps its memo.
  again() {
    this.stack = [];
    this.isOld = isOld(this.bytes.subarray(this.read.at, this.read.at + 2));
    this.follow();
    this.pop();
  }

  step() {
    super.step();
    const top = this.stack.at(-1), isChanged = RECEIVING.includes(this.read.code);
    if (isChanged && (top === MEMBER || isGetattr(top))) fail("it changes");
  }

  name(module, name) {
    const [now, its] = this.isOld ? this.renaming.renamed(module, name) : [module, name];
    this.stack.push({ isName: true, module: now, name: its });
  }

  pop() {
    const it = super.pop();
    return isGetattr(it) && this.read.code !== REDUCE ? fail("it goes elsewhere") : it;
  }

  toMark() {
    const values = super.toMark();
    return values.some(isGetattr) ? fail("it goes elsewhere") : values;
  }

  tuple(values) {
    if (values.some(isGetattr)) fail("it goes elsewhere");
    super.tuple(values);
  }

  reduce(called, words) {
    if (called === MEMBER || isGetattr(words)) fail("it is called");
    const [of, name] = Array.isArray(words) ? words : [];
    const isEnum = isName(of) && this.enums.has(`${of.module}.${of.name}`);
    if (!isGetattr(called)) this.stack.push(ANY);
    else if (words?.length === 2 && isEnum && NAME.test(name)) this.stack.push(MEMBER);
    else fail("it gets something else");
  }

  make(called) {
    if (called === MEMBER) fail("it is called");
    this.stack.push(ANY);
  }

  makeNamed() {
    this.pop();
    this.make(this.pop());
  }

  instance() {
    this.name(...this.spelled());
    this.pop();
    this.hiddenToMark(ANY);
  }

  instanceOf() {
    const [called] = this.toMark();
    this.make(called);
  }
}

// Whether these accepted pickles, each of which ends somewhere, get members of enums alone; also if
// one Unpickler loads them.
export function areMembers(bytes, ends, known) {
  try {
    for (const [number, end] of ends.entries()) {
      new Members(bytes.subarray(ends[number - 1] ?? 0, end), known).again();
    }
    const kept = new Members(bytes, known);
    while (kept.read.at < ends.at(-1)) kept.again();
    return true;
  } catch (error) {
    if (!(error instanceof NotFollowed)) throw error;
    return false;
  }
}
