// differ.mjs COUNT: prints altered frames and what the package answers, a line each. differ.py compares the native library's answers.
import * as capnp from '../../bindings/js/node.js';
import { framed, hex, hexOf, rowsOf, vectors } from './data.mjs';

let state = 0x9e3779b9 | 0;
const drawn = (below) => {
  state ^= state << 13;
  state ^= state >>> 17;
  state ^= state << 5;
  return (state >>> 0) % below;
};
/** What a call returns, or `!` and the name of its refusal, with the place of the pointer that is refused. */
function said(run) {
  try {
    return run();
  } catch (error) {
    if (!(error instanceof capnp.CanonicalError)) throw error;
    return `!${error.code}${error.pointer ? `@${error.pointer.segment},${error.pointer.word}` : ''}`;
  }
}

/** The frames in packed bytes, and after them the refusal, if there is one. */
function unpacked(bytes, words) {
  const found = [];
  const end = said(() => {
    for (const it of capnp.packedFrames(bytes, { words })) found.push(hexOf(it));
    return '.';
  });
  return [...found, end].join();
}

const sources = rowsOf('library/rows/messages.txt').map((it) => hex(it[1]));
for (const [command, , , parts] of vectors()) {
  if (parts === '-' || parts.length > 20000) continue;
  const it = parts.split(',').map(hex);
  sources.push(command === 'framed-check' || command === 'unframe' ? it[0] : framed(it));
}
const lines = [];
for (let i = 0; i < Number(process.argv[2]); i++) {
  let bytes = sources[drawn(sources.length)].slice();
  for (let turns = drawn(4); turns && bytes.length; turns--) bytes[drawn(bytes.length)] ^= 1 << drawn(8);
  if (!drawn(8)) bytes = bytes.slice(0, drawn(bytes.length + 1));
  const limits = { nesting: drawn(3) ? 64 : drawn(8), words: drawn(3) ? 100000 : drawn(80) };
  const path = Array.from({ length: drawn(4) }, () => drawn(3));
  // what is behind the table of a frame of one segment
  const words = bytes.subarray(8);
  const answers = [
    () => hexOf(capnp.canonicalize(bytes, limits)),
    () => hexOf(capnp.canonicalizeFlat(bytes, limits)),
    () => {
      const fault = capnp.check(bytes, limits);
      return fault ? `${fault.reason},${fault.segment},${fault.word}` : 'yes';
    },
    () => Object.values(capnp.size(bytes, limits)).join(),
    () => String(capnp.frameSize(bytes, limits)),
    () => hexOf(capnp.unpack(bytes, { words: 1000 })),
    () => Object.values(capnp.validate(bytes, limits)).join(),
    () => hexOf(capnp.canonicalizeFlatAt(bytes, path, limits)),
    () => hexOf(capnp.digestAt(bytes, path, limits)),
    () => Object.values(capnp.sizeAt(bytes, path, limits)).join(),
    () => hexOf(capnp.words.canonicalizeAt(words, path, limits)),
    () => hexOf(capnp.words.digestAt(words, path, limits)),
    () => Object.values(capnp.words.sizeAt(words, path, limits)).join(),
    () => hexOf(capnp.segments.canonicalizeFlatAt([words, bytes], path, limits)),
    () => hexOf(capnp.segments.digestAt([words, bytes], path, limits)),
    () => Object.values(capnp.segments.sizeAt([words, bytes], path, limits)).join(),
    () => hexOf(capnp.digest(bytes, limits)),
    () => unpacked(bytes, limits.words),
  ];
  lines.push([hexOf(bytes), limits.nesting, limits.words, path.join('.') || '-', ...answers.map(said)].join(' '));
  if (lines.length === 1000) process.stdout.write(`${lines.splice(0).join('\n')}\n`);
}
if (lines.length) process.stdout.write(`${lines.join('\n')}\n`);
