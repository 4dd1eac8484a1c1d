// Whether a pickle calls what a call of its own has made, which may do what no name shows: the rules
// are those of `storklocker scan`.

import { Follower, NotFollowed } from "./following.js";
import { isWrapper } from "./joblib.js";

const MADE = { isMade: true }, WITH_CLASS = { isWithClass: true };
const isClass = (it) => Boolean(it?.isName) && isWrapper(it);

class Calls extends Follower {
  place = -1;

  // Calls something. What wrappers of arrays make is called where a file of joblib has an array.
  call(called, isForArray = false) {
    if (called === MADE && this.place < 0) this.place = this.read.start;
    this.stack.push(isForArray ? null : MADE);
  }

  // Of a tuple only such a class is of interest, from which a function makes a wrapper.
  tuple(values) {
    this.stack.push(values.some(isClass) ? WITH_CLASS : null);
  }

  make(called) {
    this.call(called, isClass(called));
  }

  makeNamed() {
    this.pop();
    const called = this.pop();
    this.call(called, isClass(called));
  }

  reduce(called, words) {
    this.call(called, words === WITH_CLASS);
  }

  instance() {
    this.toMark();
    this.stack.push(MADE);
  }

  instanceOf() {
    this.call(this.toMark()[0]);
  }
}

// What is to be said of the calls of the accepted pickle at an offset; empty if it is nothing.
export function callsWhy(bytes, at) {
  const calls = new Calls(bytes, at);
  try {
    calls.follow();
  } catch (error) {
    if (!(error instanceof NotFollowed)) throw error;
    return "its calls can't be followed: no pickler writes such a pickle";
  }
  if (calls.place < 0) return "";
  const place = calls.place.toLocaleString("en");
  return `at byte ${place} it calls the result of its own call`;
}
