// Node unpacks what follows a packed stream too, or passes it over. Browsers end there with a
// fault, as the standard says; so does this in Node's place.

import { gunzipSync, inflateRawSync, inflateSync } from "node:zlib";

const SUMS = { gzip: 8, deflate: 0 }; // the bytes of checksums that node doesn't count

// How long a header of gzip is: ten bytes, and what its flags announce.
function headed(bytes) {
  const flags = bytes[3];
  let at = flags & 4 ? 12 + bytes.readUInt16LE(10) : 10;
  for (const flag of [8, 16]) if (flags & flag) at = bytes.indexOf(0, at) + 1;
  return flags & 2 ? at + 2 : at;
}

globalThis.DecompressionStream = class extends TransformStream {
  constructor(format) {
    const chunks = [];
    const flush = (controller) => {
      const bytes = Buffer.concat(chunks), from = format === "gzip" ? headed(bytes) : 0;
      const inflate = format === "deflate" ? inflateSync : inflateRawSync;
      const { buffer, engine } = inflate(bytes.subarray(from), { info: true });
      controller.enqueue(new Uint8Array(buffer));
      const end = from + engine.bytesWritten + (SUMS[format] ?? 0);
      if (end !== bytes.length) throw new TypeError("bytes follow the packed contents");
      if (format === "gzip") gunzipSync(bytes); // its checksum
    };
    super({ transform: (chunk) => { chunks.push(Buffer.from(chunk)); }, flush });
  }
};
