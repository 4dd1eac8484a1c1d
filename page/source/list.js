// The list of permitted imports: its text, kept in the address, and names that are put into it.

export const EMPTY = "version = 1\n\n[imports]\n";

// The list that the address has, or null.
export function listInAddress() {
  if (!location.hash.startsWith("#list=")) return null;
  try {
    return decodeURIComponent(location.hash.slice("#list=".length));
  } catch {
    return null;
  }
}

export function keepInAddress(source) {
  const hash = `#list=${encodeURIComponent(source)}`;
  if (location.hash === hash) return;
  try {
    history.replaceState(null, "", hash);
  } catch {
    location.replace(hash);
  }
}

const key = (text) => (/^[A-Za-z0-9_-]+$/.test(text) ? text : string(text));

// A string of TOML: what isn't plain is escaped.
function string(text) {
  const plain = text.replace(/["\\]|[^ -~]/gu, (it) => {
    if (it === '"' || it === "\\") return `\\${it}`;
    return `\\U${it.codePointAt(0).toString(16).padStart(8, "0")}`;
  });
  return `"${plain}"`;
}

// The text with further pairs: a line of comment or limits stays where it is, the imports are
// written anew, sorted.
export function withPairs(source, pairs, more) {
  const modules = new Map();
  for (const { module, name } of [...pairs, ...more]) {
    if (!modules.has(module)) modules.set(module, new Set());
    modules.get(module).add(name);
  }
  const lines = [...modules.keys()].sort().map((module) =>
    `${key(module)} = [${[...modules.get(module)].sort().map(string).join(", ")}]`);
  const [before, after] = around(source);
  return `${before}[imports]\n${lines.join("\n")}\n${after}`;
}

// What stands in front of the table of imports, and behind it.
function around(source) {
  const begins = source.search(/^\s*\[imports\]/m);
  if (begins < 0) return [source.trim() ? `${source.trimEnd()}\n\n` : "version = 1\n\n", ""];
  const rest = source.slice(begins).replace(/^\s*\[imports\].*/, "");
  const ends = rest.search(/^\s*\[[A-Za-z]+\]/m);
  return [source.slice(0, begins), ends < 0 ? "" : `\n${rest.slice(ends).trimStart()}`];
}
