// figures.mjs PACKAGE FILE CALL COUNT: the least time of a call in nanoseconds, of nine rounds with COUNT calls each, after as many
// calls without a watch. CALL is `words`, `digest` or `hash`, which hashes the canonical words by node:crypto.
import { createHash } from 'node:crypto';
import { readFileSync } from 'node:fs';
import { pathToFileURL } from 'node:url';

const [, , where, file, name, text] = process.argv;
const { canonicalizeFlat, digest } = await import(pathToFileURL(where).href);
const frame = new Uint8Array(readFileSync(file));
const count = Number(text);
const words = canonicalizeFlat(frame);
const call = {
  words: () => canonicalizeFlat(frame),
  digest: () => digest(frame),
  hash: () => createHash('sha256').update(words).digest(),
}[name];
let least = Infinity;
for (let round = 0; round < 10; round += 1) {
  const start = process.hrtime.bigint();
  for (let i = 0; i < count; i += 1) call();
  const taken = Number(process.hrtime.bigint() - start) / count;
  if (round > 0) least = Math.min(least, taken);
}
console.log(least.toFixed(1));
