// Verdicts and names in words. Whatever comes from a file is text here, and is only ever put into
// the page as text.

const LONGEST = 256;

const SENTENCES = {
  Truncated: "the bytes end before the pickle does",
  BadArgument: "an argument breaks a rule of the format",
  TooLarge: "a limit was exceeded",
  ExtensionCode: "it imports a name from the reader's own registry of extension codes",
  BrokenFrame: "an instruction crosses the end of a frame, or a frame begins in another",
  MissingMark: "a mark is needed, and there is none",
  MissingItem: "there are too few objects on the stack",
  OddItems: "a dictionary gets a key without a value",
  WrongClass: "an object is of a class that the instruction doesn't take",
  NotText: "the name of an import isn't text",
  UnknownImport: "only the load decides what it imports",
  LeftOver: "more than one object is left at the end",
  OutOfMemory: "the page has no memory left",
  NotAscii: "an old string has a byte beyond ASCII",
  DeepKey: "a key has more levels than are permitted",
  HeavyKeys: "a key, or all keys together, weigh more than is permitted",
  ManyKeys: "keys that can be made to collide weigh more than is permitted",
  MuchMemory: "loading takes more memory than is permitted",
  BuildsImport: "BUILD would change an imported object",
};

// Text from a file so that it can't be taken for anything else: nothing in it is invisible, turns
// the line around or goes on for ever.
export function shown(text, most = LONGEST) {
  const kept = text.length > most ? text.slice(0, most) : text;
  const plain = kept.replace(/[^\p{L}\p{M}\p{N}\p{P}\p{S} ]|[\u115f\u1160\u3164\uffa0]/gu, escaped);
  const more = (text.length - most).toLocaleString("en");
  return kept === text ? plain : `${plain}… and ${more} more`;
}

function escaped(character) {
  return `\\u{${character.codePointAt(0).toString(16)}}`;
}

export function dotted(module, name) {
  return module === null ? "a name that it computes" : shown(`${module}.${name}`);
}

export function counted(number, one, more = `${one}s`) {
  return `${number.toLocaleString("en")} ${number === 1 ? one : more}`;
}

// The line that `pktool check` prints.
export function verdictLine(verdict) {
  if (verdict.status === 0) return `yes: ${verdict.taken} bytes, ${verdict.imports} imports`;
  if (verdict.status !== 1) return `the list can't be read: ${verdict.reason}`;
  const numbered = ["UnknownOpcode", "UnsupportedProtocol", "MissingMemo"];
  let reason = verdict.reason;
  if (verdict.pair) reason += `(${verdict.pair.map(quoted).join(",")})`;
  else if (numbered.includes(reason)) reason += `(${verdict.number})`;
  return `no at ${verdict.at}: ${reason}`;
}

function quoted(text) {
  return `"${[...new TextEncoder().encode(text)].map(quotedByte).join("")}"`;
}

function quotedByte(byte) {
  const plain = byte >= 0x20 && byte <= 0x7e && byte !== 0x22 && byte !== 0x5c;
  return plain ? String.fromCharCode(byte) : `\\x${byte.toString(16).padStart(2, "0")}`;
}

// A verdict as a sentence, with its place.
export function sentence(verdict) {
  if (verdict.status === 0) {
    const imports = verdict.imports === 0 ? "nothing" : counted(verdict.imports, "listed name");
    return `Its ${counted(verdict.taken, "byte")} import ${imports}, and leave one object.`;
  }
  if (verdict.status !== 1) return "The list can't be read, so nothing was checked.";
  const place = `At byte ${verdict.at.toLocaleString("en")}`;
  if (verdict.reason === "ImportOffList") {
    const name = verdict.pair ? dotted(...verdict.pair) : "a name";
    return `${place} it imports ${name}, which isn't on the list.`;
  }
  return `${place} ${why(verdict)}.`;
}

function why({ reason, number }) {
  if (reason === "UnknownOpcode") return `no instruction begins with the byte ${number}`;
  if (reason === "UnsupportedProtocol") return `it names protocol ${number}; the last one is 5`;
  if (reason === "MissingMemo") return `it takes memo entry ${number}, which nothing has written`;
  return SENTENCES[reason] ?? `it is refused: ${reason}`;
}
