// What one Unpickler reads of pickles that follow one another: it keeps its memo for the next one,
// so that their names may be others. The rules are those of `storklocker scan`.

import { Instructions, NotFollowed, STOP } from "./following.js";
import { Naming } from "./naming.js";
import { isOld } from "./renaming.js";

const [POP] = [..."0"].map((it) => it.charCodeAt(0));

// Where the instructions of these pickles end, each with STOP; null if others are left.
export function endsOf(bytes) {
  const read = new Instructions(bytes), ends = [];
  try {
    while (read.at < bytes.length) {
      do read.next(); while (read.code !== STOP);
      ends.push(read.at);
    }
  } catch (error) {
    if (!(error instanceof NotFollowed)) throw error;
    return null;
  }
  return ends;
}

// The bytes of a stream as one pickle, in which a POP stands for each STOP but the last; null if it
// is none, or some of its pickles have names of Python 2, and others don't.
export function joined(bytes) {
  const ends = endsOf(bytes) ?? [], begins = [0, ...ends.slice(0, -1)];
  const kinds = new Set(begins.map((at) => isOld(bytes.subarray(at, at + 2))));
  if (ends.length < 2 || kinds.size > 1) return null;
  const made = bytes.slice();
  for (const end of ends.slice(0, -1)) made[end - 1] = POP;
  return made;
}

// What one Unpickler imports that loads them all.
export function keptIn(bytes, known) {
  const walk = new Naming(bytes, 0, known.renaming, known.texts);
  while (walk.again() && walk.read.at < bytes.length);
  return walk.names();
}
