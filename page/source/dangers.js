// What is known of names: the table of `storklocker lint`, looked up as the Python package does.

import { Renaming } from "./renaming.js";

const HEAD = 1000, WORDS = 32, INNER_WORDS = 8;
const HIDDEN = "The pickle computes the name that it imports.";
const UNKNOWN = "Nobody has judged what a pickle can do with it.";
const INNER = {
  severity: "danger",
  why: "It reaches into an object, and from there any object of the interpreter.",
};
const INWARDS = new Set(
  ("__base__ __bases__ __builtins__ __class__ __closure__ __code__ __dict__ __func__"
    + " __getattribute__ __globals__ __import__ __loader__ __mro__ __self__ __spec__ __subclasses__"
    + " __wrapped__ ag_frame cr_frame f_back f_builtins f_globals f_locals func_globals gi_frame"
    + " mro tb_frame").split(" "));
const MAIN = { severity: "warning", why: "Importing this module runs it as a command." };
const MAKING = [".__init__", ".__new__", ".__call__"];

// The sections of the table: a header, and the lines under it.
function sections(table) {
  const found = [];
  for (const line of table.split("\n")) {
    if (line.startsWith("[")) found.push([line, []]);
    else if (line && !line.startsWith("#")) found.at(-1)?.[1].push(line);
  }
  return found;
}

// The judged names of a table.
export class Known {
  // table: the text of known.txt; renames: Python 2's names, as `modules` and `names`; listed: the
  // pairs in the shipped lists, each as "module name".
  constructor({ table, renames, listed }) {
    Object.assign(this, { rows: new Map(), same: new Map(), under: new Map(), begun: [] });
    Object.assign(this, { texts: new Set(), enums: new Set() });
    this.renaming = new Renaming(renames);
    this.listed = new Set(listed);
    for (const [header, lines] of sections(table)) this.add(header, lines);
  }

  add(header, lines) {
    const end = header.indexOf("]");
    const kind = header.slice(1, end), told = header.slice(end + 2);
    if (kind === "text" || kind === "enum") {
      const names = kind === "text" ? this.texts : this.enums; // what follows pickles asks them
      for (const name of lines.join(" ").split(/\s+/)) names.add(name);
      return;
    }
    if (kind === "same" || kind === "alias") {
      for (const line of lines) this.same.set(...line.split(/\s+/, 2));
    } else if (kind === "danger") {
      for (const line of lines) {
        if (!line.startsWith(" ")) this.put(line.split("  ", 1)[0], { severity: kind, why: told });
      }
    } else {
      const sink = kind === "leads" ? this.judged(told) : null;
      const why = kind === "leads" ? `It leads to ${told}. ${sink?.why ?? ""}`.trimEnd() : told;
      const row = { severity: kind === "leads" ? "warning" : kind, why };
      for (const name of lines.join(" ").split(/\s+/)) this.put(name, row);
    }
  }

  put(name, row) {
    if (!this.rows.has(name)) this.rows.set(name, row);
    if (name.endsWith(".*")) {
      if (!this.under.has(name.slice(0, -2))) this.under.set(name.slice(0, -2), row);
    } else if (name.endsWith("*")) {
      this.begun.push([name.slice(0, -1), row]);
    }
  }

  // What is known of a dotted name.
  judged(name) {
    if (this.rows.has(name)) return this.rows.get(name);
    const head = name.slice(0, HEAD);
    for (const [begun, row] of this.begun) if (head.startsWith(begun)) return row;
    let front = head;
    for (let left = WORDS; left > 0 && front !== ""; left -= 1) {
      if (this.same.has(front)) return this.judged(this.same.get(front) + name.slice(front.length));
      if (this.under.has(front)) return this.under.get(front);
      front = front.slice(0, Math.max(front.lastIndexOf("."), 0));
    }
    return null;
  }

  // What is known of an import: the worst that one of its meanings does.
  of(module, name) {
    if (module === null) return { severity: "danger", why: HIDDEN };
    const found = [...this.meanings(module, name)];
    for (const severity of ["danger", "warning", "harmless"]) {
      const row = found.find((it) => it?.severity === severity);
      if (row) return row;
    }
    return { severity: "unknown", why: UNKNOWN };
  }

  *meanings(full, name) {
    const module = full.split("\0", 1)[0]; // as Python finds frozen modules
    const row = this.judged(`${module}.${name}`);
    if (this.listed.has(`${module} ${name}`) && row?.severity !== "danger") {
      yield { severity: "harmless", why: "" };
      return;
    }
    yield row;
    const now = this.renaming.renamed(module, name);
    if (now[0] !== module || now[1] !== name) yield this.judged(now.join("."));
    if (INWARDS.has(name)) yield INNER;
    if (module.endsWith(".__main__")) yield MAIN;
    const making = MAKING.find((end) => name.endsWith(end));
    if (making) yield this.judged(`${module}.${name}`.slice(0, -making.length));
    if (name.includes(".")) yield* this.inside(name.split("."));
  }

  // A dotted name may reach into a module that the first one imports, or into an object.
  *inside(words) {
    if (words.length > INNER_WORDS || words.some((word) => INWARDS.has(word))) {
      yield INNER;
      return;
    }
    for (let at = 0; at < words.length - 1; at += 1) {
      yield this.judged(words.slice(at).join(".").replace(/^_+/, ""));
    }
  }
}
