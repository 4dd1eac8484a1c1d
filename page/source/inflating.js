// What a packed stream unpacks to, within a budget.

// All that a stream unpacks to, up to what is wrong with it.
export async function inflated(blob, format, budget) {
  const reader = blob.stream().pipeThrough(new DecompressionStream(format)).getReader();
  const chunks = [];
  let problem = "";
  try {
    for (;;) {
      const { done, value } = await reader.read();
      if (done) break;
      if (!budget.spend(value.length)) {
        problem = "It unpacks to more than this page reads.";
        await reader.cancel();
        break;
      }
      chunks.push(value);
    }
  } catch {
    problem = "Its packed data are broken, or more follows them: the rest is unknown.";
  }
  return { blob: new Blob(chunks), problem };
}
