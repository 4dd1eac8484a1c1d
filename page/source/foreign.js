// Formats whose readers run something that isn't a pickle, or pickles that aren't read here: the
// table is that of `storklocker scan`.

const FRONT = 1 << 16, BLOCK = 1 << 20, OVERLAP = 256, PIECE = 1 << 13;
const ESCAPED = /\\(?:u00([0-7][0-9a-fA-F])|(\/))/g;

export class Foreign {
  // Each format has its `kind`, its `finding`, `why`, and patterns: its `front`, and what it is
  // `holding`; by whether it `isJson`, and how its name ends, if that tells.
  constructor(formats) {
    this.formats = formats.map((it) => ({
      ...it, front: new RegExp(it.front, "smy"),
      holding: it.holding === null ? null : new RegExp(it.holding, "sm"),
    }));
  }

  // What a file is besides what is read of it here.
  async *of(path, blob) {
    const front = await textOf(blob.slice(0, FRONT));
    for (const it of this.formats) {
      it.front.lastIndex = 0;
      if (!path.toLowerCase().endsWith(it.ending) || !it.front.test(front)) continue;
      const found = it.holding === null ? "" : await firstIn(blob, it);
      if (found !== null) {
        const why = found === "" ? it.why : `${it.why}: ${found}`;
        yield { path, kind: it.kind, finding: it.finding, why };
      }
    }
  }
}

// The first place of what a format holds; null if it is nowhere.
async function firstIn(blob, { holding, isJson }) {
  let kept = "";
  for (let at = 0; at < blob.size; at += BLOCK) {
    let text = kept + await textOf(blob.slice(at, at + BLOCK));
    kept = text.slice(-OVERLAP);
    text = text.replaceAll("\0", "");
    if (isJson) text = text.replace(ESCAPED, (_, hex, slash) => slash ?? char(parseInt(hex, 16)));
    const found = holding.exec(text);
    if (found) return found[0].trim();
  }
  return null;
}

const char = (code) => String.fromCharCode(code);

// Each byte as a character.
async function textOf(blob) {
  const bytes = new Uint8Array(await blob.arrayBuffer()), parts = [];
  for (let at = 0; at < bytes.length; at += PIECE) {
    parts.push(String.fromCharCode(...bytes.subarray(at, at + PIECE)));
  }
  return parts.join("");
}
