/**
 * Checks untrusted pickles before anything loads them, by a proved checker: whatever its objects do
 * when it is loaded, an accepted pickle imports only listed names and leaves exactly one object.
 * The check executes no part of it. Load the very bytes that you checked.
 *
 *     import { List } from "storklocker";
 *     const list = List.of({ collections: ["OrderedDict"] });
 *     list.check(Buffer.from("cos\nsystem\n."));
 *     // Refusal: no at 0: ImportOffList("os","system")
 *
 * The values of plain data are the program's: `storklocker json`.
 */

/** A module and a name. Those of a pickle are untrusted. */
export interface Pair {
  module: string;
  name: string;
}

/** An import, and how often a pickle makes it. Both names are null if the pickle doesn't reveal
 * them. */
export interface Import {
  module: string | null;
  name: string | null;
  count: number;
}

/** The settings of a check. One that is left out has the standard value; a limit on what loading
 * costs is then none. A limit above its greatest value means that value. */
export interface Limits {
  /** Bytes in the payload of a counted argument; 16,777,216. */
  counted?: number;
  /** Entries of the stack, marks included; 1,000,000. */
  stack?: number;
  /** Entries of the memo; 1,000,000. */
  memo?: number;
  /** Bytes in a payload that is skipped; 16,777,216. */
  passed?: number;
  /** The greatest memo number; CPython allocates 16 bytes for each number up to it; 1,000,000. */
  numbers?: number;
  /** Whether limits may be those for large data; false. */
  large?: boolean;
  /** What an unpickler makes of a string of Python 2: anything, a text or bytes; "unknown". */
  oldStrings?: "unknown" | "ascii" | "bytes";
  /** Levels of tuples in a key. */
  levels?: number;
  /** The weight of a key. */
  weight?: number;
  /** The weight of all keys. */
  work?: number;
  /** The weight of all keys that can be made to collide. */
  clash?: number;
  /** Bytes that loading takes, by estimate. */
  memory?: number;
  /** Whether BUILD may take an object that an import gave; true. */
  builds?: boolean;
}

/** A pickle, or all pickles of a stream, that may be loaded: the bytes, STOP included. */
export interface Accepted {
  taken: number;
  imports: number;
  pickles: number;
}

/** Why a pickle is refused. The message is the line of the program, in printable ASCII. */
export class Refusal extends Error {
  /** The offset of the refused instruction, from the first byte of all pickles. */
  readonly at: number;
  /** The name of the reason, such as "ImportOffList". */
  readonly reason: string;
  /** The code byte, protocol or memo number of a reason that has one. */
  readonly number?: number;
  /** The pair of ImportOffList, unless its names are longer than 131,072 bytes. */
  readonly pair?: Pair;
  /** In a stream, how many pickles were accepted before. */
  readonly pickles?: number;
}

/** Why a list file cannot be read, such as "Shape(Imports)". */
export class ListFault extends Error {
  readonly reason: string;
}

/** The imports that a pickle may make, and the limits of a check. */
export class List {
  /** The list of these modules and names, with the standard limits. */
  static of(imports: { [module: string]: string[] }): List;
  /** Reads the text of a list file, or throws a ListFault. */
  static parse(source: string): List;
  readonly pairs: Pair[];
  /** First those of the list file. */
  limits: Limits;
  /** Names of the list file, each with what stands for it when a pickle is loaded. No check depends
   * on them; whoever doesn't know them must not load under the list. */
  readonly substitutes: [string, string][];
  /** Checks the pickle at the front of the bytes, or throws a Refusal. Bytes after its STOP are
   * ignored. */
  check(pickle: Uint8Array): Accepted;
  /** Checks one or more pickles that follow one another up to the end of the bytes, each to be
   * loaded by a new Unpickler, or throws a Refusal. */
  checkStream(pickles: Uint8Array): Accepted;
}

/** The imports of the pickle at the front of the bytes, each once, and the refusal with every
 * import permitted, if there is one: then they are those before its place. Limits on what loading
 * costs are ignored. It throws a RangeError if they need more than 67,108,864 bytes. */
export function imports(
  pickle: Uint8Array,
  limits?: Limits,
): { found: Import[]; refusal: Refusal | null };

/** The instructions of the pickle at the front of the bytes, as `storklocker dis` lists them. It
 * throws a RangeError if the listing is longer than 134,217,728 bytes. */
export function dis(pickle: Uint8Array): string;
