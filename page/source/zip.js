// Members of a zip file, by its directory; and what of it readers may read differently.

import { inflated } from "./inflating.js";

const END = 0x06054b50, END_64 = 0x06064b50, ENTRY = 0x02014b50, LOCAL = 0x04034b50;
const END_SIZE = 22, LONGEST_COMMENT = 0xffff, LOCATOR_SIZE = 20, ENTRY_SIZE = 46, LOCAL_SIZE = 30;
const DESCRIPTORS = [0, 12, 16, 20, 24];
const ENCRYPTED = 1, DESCRIBED = 8;
const MOST_DIRECTORY = 1 << 26;

async function view(blob, at, size) {
  return new DataView(await blob.slice(at, at + size).arrayBuffer());
}

// The members, each with `name` and `open`, and the problems; null if there is no end record.
export async function readZip(blob, budget) {
  const end = await findEnd(blob);
  if (!end) return null;
  const zip = { problems: [...end.problems], members: [] };
  if (end.size > MOST_DIRECTORY || end.start + end.size > blob.size) {
    zip.problems.push("The directory of this zip file is damaged or too large.");
    return zip;
  }
  const directory = await view(blob, end.start, end.size);
  const covered = [];
  for (let at = 0; at + ENTRY_SIZE <= directory.byteLength;) {
    const entry = entryAt(directory, at);
    budget.members -= 1;
    if (!entry || budget.members < 0) {
      zip.problems.push("The directory of this zip file is damaged, or has too many members.");
      break;
    }
    zip.members.push(await memberOf(blob, entry, budget, covered));
    at = entry.next;
  }
  if (zip.members.length % 2 ** 16 !== end.count) {
    zip.problems.push("Its directory has other members than its end record says.");
  }
  zip.problems.push(...gaps(covered, end.start), ...repeated(zip.members));
  return zip;
}

async function findEnd(blob) {
  const start = Math.max(0, blob.size - END_SIZE - LONGEST_COMMENT);
  const tail = await view(blob, start, blob.size - start);
  for (let at = tail.byteLength - END_SIZE; at >= 0; at -= 1) {
    if (tail.getUint32(at, true) !== END) continue;
    const end = { size: tail.getUint32(at + 12, true), start: tail.getUint32(at + 16, true) };
    end.count = tail.getUint16(at + 10, true);
    end.problems = at + END_SIZE === tail.byteLength
      ? [] : ["Bytes follow the end record of this zip file: readers may differ about it."];
    if ([4, 6].some((disk) => tail.getUint16(at + disk, true) !== 0)
      || tail.getUint16(at + 8, true) !== end.count) {
      end.problems.push("It is one of several disks: readers differ.");
    }
    const isLong = end.start === 0xffffffff || end.size === 0xffffffff;
    const found = isLong ? { ...end, ...(await longEnd(blob, start + at)) } : end;
    if (found.start + found.size !== (found.place ?? start + at)) {
      end.problems.push("Bytes stand between its directory and its end: readers may differ.");
    }
    return found;
  }
  return null;
}

// The end record for large files stands in front of the other one.
async function longEnd(blob, before) {
  const locator = await view(blob, Math.max(0, before - LOCATOR_SIZE), LOCATOR_SIZE);
  const place = Number(locator.getBigUint64(8, true)), record = await view(blob, place, 56);
  if (record.byteLength < 56 || record.getUint32(0, true) !== END_64) return { size: Infinity };
  const long = (at) => Number(record.getBigUint64(at, true));
  return { size: long(40), start: long(48), count: long(32) % 2 ** 16, place };
}

function entryAt(directory, at) {
  const short = (place) => directory.getUint16(at + place, true);
  const word = (place) => directory.getUint32(at + place, true);
  if (word(0) !== ENTRY) return null;
  const [nameSize, extraSize] = [short(28), short(30)];
  const next = at + ENTRY_SIZE + nameSize + extraSize + short(32);
  if (next > directory.byteLength) return null;
  const name = bytesOf(directory, at + ENTRY_SIZE, nameSize);
  const entry = {
    name, next, flags: short(8), method: short(10), sum: word(16), packed: word(20),
    size: word(24), start: word(42),
  };
  return withLong(entry, directory, at + ENTRY_SIZE + nameSize, extraSize);
}

function bytesOf(of, at, size) {
  return new Uint8Array(of.buffer, of.byteOffset + at, size);
}

// The numbers that don't fit 32 bits stand in an extra field.
function withLong(entry, directory, from, size) {
  for (let at = from; at + 4 <= from + size;) {
    const [kind, length] = [directory.getUint16(at, true), directory.getUint16(at + 2, true)];
    if (kind === 1) {
      let place = at + 4;
      for (const field of ["size", "packed", "start"]) {
        if (entry[field] !== 0xffffffff || place + 8 > at + 4 + length) continue;
        entry[field] = Number(directory.getBigUint64(place, true));
        place += 8;
      }
    }
    at += 4 + length;
  }
  return entry;
}

async function memberOf(blob, entry, budget, covered) {
  const name = new TextDecoder().decode(entry.name);
  const member = { name, isFolder: entry.size === 0 && name.endsWith("/") };
  const local = await view(blob, entry.start, LOCAL_SIZE);
  if (local.byteLength < LOCAL_SIZE || local.getUint32(0, true) !== LOCAL) {
    return { ...member, open: async () => ({ problem: "Its local header is missing." }) };
  }
  const nameSize = local.getUint16(26, true);
  const start = entry.start + LOCAL_SIZE + nameSize + local.getUint16(28, true);
  const inner = await view(blob, entry.start + LOCAL_SIZE, nameSize);
  const isSame = nameSize === entry.name.length && local.getUint16(8, true) === entry.method
    && bytesOf(inner, 0, inner.byteLength).every((byte, at) => byte === entry.name[at]);
  covered.push({ from: entry.start, to: start + entry.packed, flags: entry.flags });
  const body = blob.slice(start, start + entry.packed);
  return { ...member, open: () => openMember(entry, body, isSame, budget) };
}

async function openMember(entry, body, isSame, budget) {
  if (!isSame) return { problem: "Its local header differs from the directory." };
  if (entry.flags & ENCRYPTED) return { problem: "It is encrypted." };
  if (body.size !== entry.packed) return { problem: "It is cut off." };
  if (entry.method === 0) return { blob: body };
  if (entry.method !== 8) return { problem: `It is packed by method ${entry.method}.` };
  const found = await inflated(body, "deflate-raw", budget);
  if (!found.problem && found.blob.size !== entry.size) {
    found.problem = "It unpacks to a size that differs from the directory's.";
  }
  return found;
}

// Bytes that belong to no member: other readers may find members there.
function gaps(covered, end) {
  covered.sort((a, b) => a.from - b.from);
  let at = 0;
  let flags = 0;
  for (const part of [...covered, { from: end, to: end, flags: 0 }]) {
    const gap = part.from - at;
    if (gap !== 0 && !(flags & DESCRIBED && DESCRIPTORS.includes(gap))) {
      return ["Members overlap, or bytes belong to none: readers may differ about this zip file."];
    }
    at = part.to;
    flags = part.flags;
  }
  return [];
}

function repeated(members) {
  const names = new Set(members.map((member) => member.name));
  return names.size === members.length
    ? [] : ["Two members have the same name: readers may take either."];
}
