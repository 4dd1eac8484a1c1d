// How Python 3 names what pickles of protocols 0 to 2 name as Python 2 did, by CPython's tables.

export class Renaming {
  // modules and names: the tables, a name as "module name".
  constructor({ modules, names }) {
    this.modules = new Map(Object.entries(modules));
    this.names = new Map(Object.entries(names));
    this.before = { modules: inverted(this.modules), names: inverted(this.names) };
  }

  // What such a pickle imports by this name.
  renamed(module, name) {
    const moved = this.names.get(`${module} ${name}`);
    return moved ? moved.split(" ") : [this.modules.get(module) ?? module, name];
  }

  // The pairs by which such a pickle imports this name.
  *spelled(module, name) {
    for (const old of this.before.names.get(`${module} ${name}`) ?? []) yield old.split(" ");
    for (const old of [module, ...this.before.modules.get(module) ?? []]) {
      const isMoved = this.names.has(`${old} ${name}`);
      if (!isMoved && this.renamed(old, name)[0] === module) yield [old, name];
    }
  }
}

function inverted(table) {
  const found = new Map();
  for (const [old, now] of table) found.set(now, [...found.get(now) ?? [], old]);
  return found;
}

// Whether the first instruction of a pickle says such a protocol.
export function isOld([first, second]) {
  return first !== 0x80 || !(second >= 3);
}
