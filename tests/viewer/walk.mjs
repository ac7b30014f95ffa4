// walk.mjs [PACKAGE]: compares viewer/walk.js, which isn't proved, with the corpus of tests/corpus: how many words canonical form has, what
// has no canonical form, and that nothing in canonical words is dropped, broken or unreachable. The objects come from the JavaScript package
// in PACKAGE, bindings/js of this folder if it is left out. The last line is `N passed, M failed`.
import { readFileSync } from 'node:fs';
import { resolve } from 'node:path';
import { pathToFileURL } from 'node:url';
import { Role, canonicalWords, segmentsOf, walk } from '../../viewer/walk.js';

const { segments: messages } = await import(pathToFileURL(resolve(process.argv[2] ?? 'bindings/js', 'node.js')));

let passed = 0, failed = 0;
function check(id, what, got, wanted) {
  if (Object.is(got, wanted)) return void passed++;
  failed++;
  if (failed <= 10) console.log(`corpus ${id}, ${what}: ${got}, wanted ${wanted}`);
}

const superfluous = new Set([Role.dropped, Role.broken, Role.unreached, Role.far, Role.pad, Role.capability]);
for (const text of readFileSync(new URL('../corpus/corpus.jsonl', import.meta.url), 'utf-8').trimEnd().split('\n')) {
  const { id, frame, canonical, class: kind, is_canonical: isCanonical } = JSON.parse(text);
  const of = segmentsOf(Uint8Array.from(Buffer.from(frame, 'hex')));
  if (kind === 'frame') {
    // the page shows what the library says of these
    if (frame.length > 8 && !of) check(id, 'no frame', of, undefined);
    continue;
  }
  const found = walk(of.segments, messages.walk);
  // a walk has no limit of words
  if (kind === 'limit') continue;
  check(id, kind ?? 'words', canonicalWords(found), canonical === null ? undefined : canonical.length / 16);
  if (kind === 'malformed' && found.root) check(id, 'broken', found.nodes.some((it) => it.kind === 'broken'), true);
  if (kind === 'capability') check(id, 'capability', found.nodes.some((it) => it.kind === 'capability'), true);
  if (canonical !== null && canonical.length) {
    const copy = Uint8Array.from(Buffer.from(canonical, 'hex'));
    check(id, 'canonical words', [...walk([copy], messages.walk).roles[0]].find((it) => superfluous.has(it)), undefined);
  }
  if (isCanonical) check(id, 'superfluous', found.all.dropped + found.all.unreached + found.all.far, 0);
}
console.log(`${passed} passed, ${failed} failed`);
process.exit(failed || !passed ? 1 : 0);
