// What a guard refuses by default, whatever is listed: keys whose hashing costs too much, and BUILD
// on what was imported. The proved checker says so; the words are the package's.

import { NO } from "./checker.js";

export class Costs {
  // said: the `usual` limits, the `kinds` of findings and the words, by the name of the reason.
  constructor(checker, said) {
    Object.assign(this, said, { checker });
  }

  // What the pickle at an offset exceeds: the kind of the finding, and why; null if nothing.
  exceeded(offset) {
    const found = this.checker.loading(offset, this.usual);
    const kind = found.status === NO ? this.kinds[found.reason] : null;
    if (!kind) return null;
    const words = this.isAll(offset, found) ? this.all : this.words[found.reason];
    const why = filled(words, { ...this.usual, at: found.at });
    return { kind, why: kind === this.costly ? why + this.bill(offset) : why };
  }

  // Whether it is all keys that weigh too much, and no key alone.
  isAll(offset, { reason, at }) {
    if (reason !== "HeavyKeys") return false;
    return this.checker.loading(offset, { ...this.usual, work: null }).at !== at;
  }

  bill(offset) {
    const { status, bill } = this.checker.loading(offset);
    if (status === NO) return "";
    const plus = (name) => (Number(bill[name]) === this.counted[name] ? "+" : "");
    return filled(this.told, { ...bill, deeper: plus("levels"), more: plus("weight") });
  }
}

// A text of the package with what stands in braces, as Python fills it in.
function filled(words, given) {
  return words.replace(/\{(\w+)(?::,)?\}/g, (_, name) => given[name].toLocaleString("en"));
}
