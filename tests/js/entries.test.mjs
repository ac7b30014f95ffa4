// The entries of the package, each in a process of its own, and what streams, digests and comparisons add to the library's calls.
import assert from 'node:assert/strict';
import { execFileSync } from 'node:child_process';
import { createHash } from 'node:crypto';
import { mkdirSync, mkdtempSync, readFileSync, rmSync, symlinkSync, writeFileSync } from 'node:fs';
import { tmpdir } from 'node:os';
import { join } from 'node:path';
import { after, test } from 'node:test';
import * as capnp from '../../bindings/js/node.js';
import { use } from '../../bindings/js/library.js';
import { module as text } from '../../bindings/js/module.js';
import { framed, hex, hexOf, passed, rowsOf } from './data.mjs';

const PACKAGE = new URL('../../bindings/js', import.meta.url).pathname;
const folder = mkdtempSync(join(tmpdir(), 'entries-'));
mkdirSync(join(folder, 'node_modules'));
symlinkSync(PACKAGE, join(folder, 'node_modules/capnp_canonical'));
after(() => rmSync(folder, { recursive: true }));

const [, frame, , flat, , , digest] = rowsOf('library/rows/messages.txt').find((it) => it[2] === 'Done');
const given = `Uint8Array.from('${frame}'.match(/../g), (it) => parseInt(it, 16))`;
const wasm = (name) => readFileSync(join(PACKAGE, `${name}.wasm`));

/** What a program prints. Its package is the one of the repository. */
function printed(code, ...options) {
  writeFileSync(join(folder, 'program.mjs'), code);
  return execFileSync(process.execPath, ['--no-warnings', '--preserve-symlinks', ...options, join(folder, 'program.mjs')], { encoding: 'utf-8' }).trim();
}

/** Options that have node import a module of WebAssembly compiled, like workerd. */
function likeWorkerd() {
  writeFileSync(join(folder, 'hook.mjs'), `export const load = async (url, context, next) => url.endsWith('.wasm')
    ? { format: 'module', shortCircuit: true, source: 'import { readFileSync } from "node:fs"; export default new WebAssembly.Module(readFileSync(new URL(' + JSON.stringify(url) + ')));' }
    : next(url, context);`);
  return ['--conditions=workerd', `--loader=${join(folder, 'hook.mjs')}`];
}

test('entries', () => {
  const names = Object.keys(capnp).sort().join(), call = (it) => `import * as capnp from '${it}'; await capnp.init?.();
    const { init, use, ...calls } = capnp; console.log(capnp.digestHex(${given}), Object.keys(calls).sort().join());`;
  let count = 0;
  const entries = ['capnp_canonical', 'capnp_canonical/init', 'capnp_canonical/inline'];
  for (const entry of entries) {
    for (const options of [[], likeWorkerd()]) {
      assert.equal(printed(call(entry), ...options), `${digest} ${names}`, `${entry} ${options}`);
      count++;
    }
  }
  const small = `import { readFileSync } from 'node:fs'; import { init, isCanonical, size } from 'capnp_canonical/init';
    await init(new WebAssembly.Module(readFileSync('${PACKAGE}/capnp_canonical_small.wasm'))); import * as capnp from 'capnp_canonical';
    try { capnp.digest(${given}); } catch (error) { console.log(error.name, size(${given}).words); }`;
  assert.equal(printed(small, ...likeWorkerd()), `TypeError ${capnp.size(hex(frame)).words}`);
  const { exports, sideEffects } = JSON.parse(readFileSync(join(PACKAGE, 'package.json'), 'utf-8'));
  // each entry of each condition is a file, and only those that load the module have effects
  for (const [name, entry] of Object.entries(exports)) {
    for (const file of typeof entry === 'string' ? [entry] : Object.values(entry)) {
      const code = readFileSync(join(PACKAGE, file), 'utf-8');
      if (/\.js$/.test(file)) assert.equal(/^(const answer = await|use\()/m.test(code), sideEffects.includes(file), `${name} ${file}`);
      count++;
    }
  }
  passed('entries', count);
});

test('a package that is initialised', () => {
  const start = (entry) => `import * as capnp from '${entry}'; import { readFileSync } from 'node:fs';
    const said = (run) => { try { return run(); } catch (error) { return error.name + ': ' + error.message; } };
    const small = readFileSync('${PACKAGE}/capnp_canonical_small.wasm'), whole = readFileSync('${PACKAGE}/capnp_canonical.wasm');
    const digest = () => said(() => capnp.digestHex(${given}));`;
  let count = 0;
  for (const entry of ['capnp_canonical/init', 'capnp_canonical/inline']) {
    const holds = (code, wanted) => assert.equal(printed(start(entry) + code), wanted, `${entry} ${code}`) ?? count++;
    holds('console.log(digest())', 'Error: capnp_canonical has no module yet: `await init()` first, or call `use`');
    holds('const one = capnp.init(); console.log(one === capnp.init(), await one, digest())', `true undefined ${digest}`);
    // after a failure it can be tried again
    holds(`try { await capnp.init(new Uint8Array(8)); } catch (error) { console.log(error instanceof WebAssembly.CompileError); }
      await capnp.init(); console.log(digest());`, `true\n${digest}`);
    holds(`try { await capnp.init(new Response('no', { status: 404 })); } catch (error) { console.log(error.message); }`, ': 404');
    const data = '"data:application/wasm;base64," + whole.toString("base64")';
    for (const source of ['whole', 'new WebAssembly.Module(whole)', 'WebAssembly.compile(whole)', 'new Response(whole)', data, `new URL(${data})`, `fetch(${data})`]) {
      holds(`await capnp.init(${source}); console.log(digest());`, digest);
    }
    // the small one has no digests, and all else
    holds(`await capnp.init(small); console.log(digest()); console.log(said(() => capnp.digestAt(${given}, [])));
      console.log(Buffer.from(capnp.canonicalizeFlat(${given})).toString('hex'), capnp.isCanonical(${given}));`,
    `${'TypeError: this module has no digests: it is the small one\n'.repeat(2)}${flat} ${capnp.isCanonical(hex(frame))}`);
  }
  passed('a package that is initialised', count);
});

test('the module as text', () => {
  assert.ok(Buffer.from(text, 'base64').equals(wasm('capnp_canonical')));
  const origin = readFileSync(join(PACKAGE, 'ORIGIN'), 'utf-8');
  for (const name of ['capnp_canonical', 'capnp_canonical_small']) {
    assert.ok(origin.includes(`sha256 of ${name}.wasm: ${createHash('sha256').update(wasm(name)).digest('hex')}\n`), name);
  }
  const exported = (name) => WebAssembly.Module.exports(new WebAssembly.Module(wasm(name))).map((it) => it.name).sort();
  assert.deepEqual(exported('capnp_canonical_small'), exported('capnp_canonical').filter((it) => !it.includes('digest')));
  // without SHA-256
  assert.ok(wasm('capnp_canonical_small').length < wasm('capnp_canonical').length - 20_000);
  passed('the module as text', 1);
});

test('one file by esbuild', { skip: (() => { try { execFileSync('esbuild', ['--version']); return false; } catch { return 'no esbuild'; } })() }, () => {
  // for browsers without top-level await, and as a classic script, which a service worker may be
  for (const format of ['esm', 'iife']) {
    writeFileSync(join(folder, 'entry.js'), `import { digestHex, init } from 'capnp_canonical/inline'; init().then(() => console.log(digestHex(${given})));`);
    execFileSync('esbuild', ['--bundle', '--platform=browser', '--target=es2020', `--format=${format}`, '--log-level=error', `--outfile=${join(folder, `bundle.${format}.mjs`)}`, join(folder, 'entry.js')], { cwd: folder });
    assert.equal(printed(readFileSync(join(folder, `bundle.${format}.mjs`), 'utf-8')), digest);
  }
  passed('one file by esbuild', 2);
});

test('digests and comparisons', () => {
  let count = 0;
  const rows = rowsOf('library/rows/messages.txt').filter((it) => it[2] === 'Done');
  for (const [name, frame, , flat, , , digest] of rows) {
    assert.equal(capnp.digestHex(hex(frame)), digest, name);
    assert.equal(capnp.words.digestHex(hex(flat)), digest, name);
    assert.equal(capnp.segments.digestHex([hex(flat)]), digest, name);
    for (const [, other, , words] of rows) {
      const same = flat === words;
      assert.equal(capnp.equals(hex(frame), hex(other)), same);
      assert.equal(capnp.words.equals(hex(flat), hex(words)), same);
      assert.equal(capnp.segments.equals([hex(flat)], [hex(words)]), same);
      count++;
    }
  }
  assert.ok(rows.some((it) => it[3].startsWith(rows[0][3])));
  for (const [one, other] of [[hex(frame), hex('00')], [hex('00'), hex(frame)]]) assert.throws(() => capnp.equals(one, other), { code: 'Truncated' });
  passed('digests and comparisons', count);
});

/** What `run` returns, and how often it called each function of the library's module. */
function counted(run) {
  const { Instance } = WebAssembly, counts = {};
  WebAssembly.Instance = function instance(...given) {
    const { exports } = new Instance(...given);
    const noted = ([name, it]) => [name, typeof it !== 'function' ? it : (...all) => {
      counts[name] = (counts[name] ?? 0) + 1;
      return it(...all);
    }];
    return { exports: Object.fromEntries(Object.entries(exports).map(noted)) };
  };
  try {
    // a new instance
    use(new WebAssembly.Module(wasm('capnp_canonical')));
    return [run(), counts];
  } finally {
    WebAssembly.Instance = Instance;
    use(new WebAssembly.Module(wasm('capnp_canonical')));
  }
}

test('comparisons make no copies', () => {
  // frames of one segment with a text of `size` letters, and more bytes after them
  const text = (size, letter, after = 0) => {
    const words = Math.ceil((size + 1) / 8), bytes = new Uint8Array(16 + 8 * words), view = new DataView(bytes.buffer);
    view.setUint32(4, 1 + words, true);
    view.setUint32(8, 1, true);
    view.setUint32(12, 2 + 8 * (size + 1), true);
    bytes.fill(letter.charCodeAt(0), 16, 16 + size);
    return Buffer.concat([bytes, new Uint8Array(after)]);
  };
  let count = 0;
  for (const [size, letter, after] of [[3, 'a', 0], [3, 'b', 0], [5000, 'a', 0], [5000, 'b', 9], [9000, 'a', 70000]]) {
    for (const [otherSize, otherLetter, otherAfter] of [[3, 'a', 5], [5000, 'a', 4000], [5000, 'b', 0], [9000, 'a', 1]]) {
      const same = size === otherSize && letter === otherLetter, one = text(size, letter, after), other = text(otherSize, otherLetter, otherAfter);
      const words = (it, length) => it.subarray(8, 16 + 8 * Math.ceil((length + 1) / 8));
      const forms = [
        ['capnp_canonical_equal', () => capnp.equals(one, other)],
        ['capnp_canonical_words_equal', () => capnp.words.equals(words(one, size), words(other, otherSize))],
        // lists that can be read once
        ['capnp_canonical_segments_equal', () => capnp.segments.equals([words(one, size)].values(), [words(other, otherSize)].values())],
      ];
      for (const [name, run] of forms) {
        const [answer, counts] = counted(run);
        assert.equal(answer, same, `${name} ${size} ${letter} ${otherSize} ${otherLetter}`);
        assert.equal(counts[name], 1);
        assert.ok(!Object.keys(counts).some((it) => it.includes('copy')), `${Object.keys(counts)}`);
        count++;
      }
    }
  }
  // the error is that of the first message that is refused, with its pointer
  const good = text(3, 'a'), [outside, unknown] = [0x7f, 7].map((it) => {
    const bytes = Buffer.from(good);
    bytes[8] = it;
    return bytes;
  });
  for (const [one, other, code] of [[good, outside, 'MessageContainsOutOfBoundsPointer'], [outside, unknown, 'MessageContainsOutOfBoundsPointer'], [unknown, outside, 'UnknownPointerType'], [unknown, hex('00'), 'UnknownPointerType']]) {
    assert.throws(() => capnp.equals(one, other), { code, pointer: { segment: 0, word: 0 } });
    assert.throws(() => capnp.words.equals(one.subarray(8), other.subarray(8)), { code });
    assert.throws(() => capnp.segments.equals([one.subarray(8)].values(), [other.subarray(8)].values()), { code });
    count += 3;
  }
  assert.throws(() => capnp.equals(text(5000, 'a'), text(5000, 'a').subarray(0, 4999)), { code: 'Truncated' });
  assert.throws(() => capnp.equals(text(5000, 'a'), text(5000, 'a'), { words: 600 }), { code: 'MessageTooLong' });
  passed('comparisons make no copies', count + 2);
});

const number = (value) => framed([hex(`0000000001000000${value.toString(16).padStart(2, '0')}00000000000000`)]);

test('frames and memory that is transferred', async () => {
  const all = Buffer.concat([number(1), number(2), number(3)]), transfer = (it) => structuredClone(it, { transfer: [it.buffer] });
  for (const step of [1, 24, 25, all.length]) {
    // each frame of pieces has memory of its own
    const pieces = Array.from({ length: Math.ceil(all.length / step) }, (_, i) => all.subarray(i * step, (i + 1) * step)), found = [];
    for await (const it of capnp.framesFrom(pieces)) {
      assert.equal(it.buffer.byteLength, it.length);
      found.push(hexOf(it));
      transfer(it);
    }
    assert.deepEqual(found, [1, 2, 3].map((it) => hexOf(number(it))));
  }
  // the frames of bytes are views, so the rest would be gone
  const bytes = Uint8Array.from(all), frames = capnp.frames(bytes);
  transfer(frames.next().value);
  assert.throws(() => frames.next(), { name: 'TypeError', message: /transferred or resized/ });
  const lastly = capnp.frames(Uint8Array.from(number(1)));
  transfer(lastly.next().value);
  assert.throws(() => lastly.next(), TypeError);
  passed('frames and memory that is transferred', 1);
});

test('packed bytes whose memory shrinks', { skip: !('resizable' in ArrayBuffer.prototype) && 'no resizable memory' }, () => {
  const memory = new ArrayBuffer(64, { maxByteLength: 64 }), bytes = new Uint8Array(memory);
  bytes.set(hex('1001012a'.repeat(16)));
  const frames = capnp.packedFrames(bytes);
  frames.next();
  memory.resize(3);
  assert.throws(() => frames.next(), { name: 'TypeError', message: /transferred or resized/ });
  passed('packed bytes whose memory shrinks', 1);
});

async function collectedFrom(stream) {
  for await (const it of stream) assert.fail(it);
}

/** What a stream of frames has, and how it ends. */
async function collected(stream) {
  const found = [];
  try {
    for await (const it of stream) found.push(hexOf(it));
  } catch (error) {
    return [found, error.code ?? error.name, error.place];
  }
  return [found, 'Done', undefined];
}

test('TransformStreams', async () => {
  let count = 0;
  const cut = (bytes, step) => Array.from({ length: Math.ceil(bytes.length / step) }, (_, i) => bytes.subarray(i * step, (i + 1) * step));
  const compared = async (bytes, from, stream, what) => {
    for (const step of [1, 7, 64, 4096]) {
      const through = new ReadableStream({ start: (it) => (cut(bytes, step).forEach((piece) => it.enqueue(piece)), it.close()) }).pipeThrough(stream());
      assert.deepEqual(await collected(through), await collected(from(cut(bytes, step))), what);
      count++;
    }
  };
  for (const [name, packed, wanted, end] of rowsOf('library/rows/streams.txt')) {
    await compared(hex(packed.replaceAll(',', '')), capnp.packedFramesFrom, capnp.packedFrameStream, name);
    const unpacked = hex(wanted.replaceAll(',', ''));
    await compared(unpacked, capnp.framesFrom, capnp.frameStream, `${name} ${end}`);
    await compared(unpacked.subarray(0, unpacked.length - 1), capnp.framesFrom, capnp.frameStream, `${name}, cut`);
  }
  const limited = new Blob([number(1)]).stream().pipeThrough(capnp.frameStream({ words: 1 }));
  assert.deepEqual((await collected(limited)).slice(0, 2), [[], 'MessageTooLong']);
  const wrong = new ReadableStream({ start: (it) => it.enqueue('text') }).pipeThrough(capnp.packedFrameStream());
  assert.deepEqual((await collected(wrong)).slice(0, 2), [[], 'TypeError']);
  assert.throws(() => capnp.frameStream({ depth: 1 }), TypeError);
  // a frame is there before the next piece is
  const { readable, writable } = capnp.frameStream(), writer = writable.getWriter(), reader = readable.getReader();
  for (const it of [1, 2, 3]) {
    writer.write(number(it));
    assert.equal(hexOf((await reader.read()).value), hexOf(number(it)));
  }
  // what stops one end stops the other
  for (const make of [capnp.frameStream, capnp.packedFrameStream]) {
    for (const isPending of [false, true]) {
      const { readable, writable } = make(), writer = writable.getWriter(), reader = readable.getReader(), ends = assert.rejects(writer.closed, { message: 'enough' });
      const read = isPending && reader.read();
      await reader.cancel(new Error('enough'));
      await ends;
      assert.ok(!isPending || (await read).done);
    }
    const aborted = make(), writer = aborted.writable.getWriter();
    const reads = assert.rejects(collectedFrom(aborted.readable), { message: 'gone' });
    await writer.abort(new Error('gone'));
    await reads;
    const refused = make(), end = refused.writable.getWriter();
    assert.equal((await Promise.all([collected(refused.readable), end.write(hex('ffffffffffffffffffffffffff')), end.closed.catch(() => {})]))[0][1], 'TooManySegments');
  }
  passed('TransformStreams', count);
});
