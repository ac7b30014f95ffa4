// The package over the repository's vectors, streams, messages and packed bytes, and over hostile ones.
import assert from 'node:assert/strict';
import { createHash } from 'node:crypto';
import { test } from 'node:test';
import vm from 'node:vm';
import { use } from '../../bindings/js/core.js';
import { called } from '../../bindings/js/library.js';
import * as capnp from '../../bindings/js/node.js';
import { framed, hex, hexOf, jsonl, passed, rowsOf, said, vectors } from './data.mjs';

const { CanonicalError, MAX_NESTING, Reading, Reason, Refusal } = capnp;
const refusal = (text) => (/^[A-Z]/.test(text) ? `!${text}` : text);
const faultOf = (fault) => (fault ? `${fault.reason},${fault.segment},${fault.word}` : 'yes');

/** The segments of a frame. */
function segmentsOf(bytes) {
  const segments = [];
  for (let number = 0, table = bytes.length >= 8 ? new DataView(bytes.buffer) : undefined, at = 0; table && number <= table.getUint32(0, true) && number < 512; number++) {
    at ||= Math.ceil((4 + 4 * (table.getUint32(0, true) + 1)) / 8) * 8;
    segments.push(bytes.subarray(at, (at += 8 * table.getUint32(4 + 4 * number, true))));
  }
  return segments;
}

test('messages', () => {
  let count = 0;
  for (const [name, frame, copy, flat, check, size, digest] of rowsOf('library/rows/messages.txt')) {
    const bytes = hex(frame), isCopied = copy === 'Done', segments = segmentsOf(bytes);
    assert.equal(said(() => hexOf(capnp.canonicalize(bytes))), isCopied ? hexOf(framed([hex(flat)])) : `!${copy}`, name);
    assert.equal(said(() => hexOf(capnp.canonicalizeFlat(bytes))), isCopied ? flat : `!${copy}`, name);
    assert.equal(said(() => hexOf(capnp.digest(bytes))), isCopied ? digest : `!${copy}`, name);
    assert.equal(said(() => faultOf(capnp.check(bytes))), refusal(check), name);
    assert.equal(said(() => Object.values(capnp.size(bytes)).join()), refusal(size), name);
    assert.equal(capnp.isCanonical(bytes), check === 'yes', name);
    if (isCopied) {
      assert.equal(hexOf(capnp.segments.canonicalize(segments)), hexOf(framed([hex(flat)])), name);
      assert.equal(hexOf(capnp.segments.canonicalizeFlat(segments)), flat, name);
      assert.equal(hexOf(capnp.segments.digest(segments)), digest, name);
      assert.equal(hexOf(capnp.words.digest(hex(flat))), digest, name);
      assert.equal(capnp.segments.isCanonical(segments), check === 'yes', name);
      assert.equal(hexOf(capnp.words.canonicalize(hex(flat))), flat, name);
      assert.ok(capnp.words.isCanonical(hex(flat)), name);
      assert.equal(capnp.words.check(hex(flat)), null, name);
      assert.equal(Object.values(capnp.words.size(hex(flat))).join(), `${hex(flat).length / 8 - 1},0`, name);
    }
    count++;
  }
  passed('messages', count);
});

test('digests of a prefix, and packed frames', () => {
  let count = 0;
  for (const [name, frame, path, prefix, digest, packed] of rowsOf('library/rows/prefixes.txt')) {
    const bytes = hex(frame), segments = segmentsOf(bytes), before = hex(prefix), indexes = path === '-' ? [] : path.split('.').slice(0, -1).map(Number);
    const what = `${name} ${path} ${prefix}`, flat = capnp.canonicalizeFlatAt(bytes, indexes);
    assert.equal(hexOf(capnp.digestWithAt(before, bytes, indexes)), digest, what);
    assert.equal(hexOf(capnp.segments.digestWithAt(before, segments, indexes)), digest, what);
    assert.equal(hexOf(capnp.words.digestWith(before, flat)), digest, what);
    assert.equal(hexOf(capnp.words.digestWithAt(before, flat, [])), digest, what);
    assert.equal(createHash('sha256').update(before).update(flat).digest('hex'), digest, what);
    if (!indexes.length) {
      assert.equal(hexOf(capnp.digestWith(before.buffer, bytes)), digest, what);
      assert.equal(hexOf(capnp.segments.digestWith(before, segments)), digest, what);
    }
    if (packed !== '-') assert.equal(hexOf(capnp.pack(bytes)), packed, what);
    assert.deepEqual(capnp.unpack(capnp.pack(bytes)), bytes, what);
    count++;
  }
  assert.equal(count, 26);
  assert.equal(hexOf(capnp.pack(new Uint8Array(8 * 300))), '00ff002b');
  // more packed bytes than there is room for at first: words of 255 and two zero bytes in turn
  const long = new Uint8Array(1 << 16).fill(7).map((it, at) => (at % 16 > 13 ? 0 : it));
  assert.deepEqual(capnp.unpack(capnp.pack(long)), long);
  assert.equal(capnp.pack(new Uint8Array(0)).length, 0);
  assert.throws(() => capnp.pack(new Uint8Array(9)), { code: 'SegmentIsNotWholeWords' });
  assert.throws(() => capnp.pack('text'), TypeError);
  assert.throws(() => capnp.digestWith('prefix', new Uint8Array(16)), TypeError);
  // a refusal has its place
  const broken = hex('00000000010000000000000001000000');
  assert.throws(() => capnp.digestWith(new Uint8Array(8), broken), { code: 'MessageContainsOutOfBoundsPointer', pointer: { segment: 0, word: 0 } });
  assert.throws(() => capnp.digestWithAt(new Uint8Array(8), broken, [1]), { code: 'MessageContainsOutOfBoundsPointer' });
  passed('digests of a prefix, and packed frames', count);
});

/** The words of the value of a row's part, as `size` counts them. */
const wordsOfPart = (flat) => `${hex(flat).length / 8 - 1},0`;

test('parts of messages', () => {
  let count = 0;
  const forms = new Map([[capnp, 0], [capnp.segments, 0], [capnp.words, 0]]);
  for (const [name, frame, path, answer, flat, digest] of rowsOf('library/rows/parts.txt')) {
    const bytes = hex(frame), segments = segmentsOf(bytes), indexes = path === '-' ? [] : path.split('.').slice(0, -1).map(Number);
    const wanted = (text) => (answer === 'Done' ? text : `!${answer}`), what = `${name} ${path}`;
    const messages = [[capnp, bytes], [capnp.segments, segments], [capnp.segments, new Set(segments)]];
    if (segments.length === 1) messages.push([capnp.segments, [segments[0].slice().buffer]], [capnp.words, segments[0]], [capnp.words, new DataView(segments[0].slice().buffer)]);
    for (const [form, message] of messages) {
      assert.equal(said(() => hexOf((form.canonicalizeFlatAt ?? form.canonicalizeAt)(message, indexes))), wanted(flat), what);
      assert.equal(said(() => hexOf(form.digestAt(message, new Uint32Array(indexes)))), wanted(digest), what);
      // the words of the message itself needn't be trimmed, so only the part's copy has a known size
      assert.equal(said(() => typeof form.sizeAt(message, indexes.values()).words), wanted('number'), what);
      assert.deepEqual(said(() => form.sizeAt(message, indexes)), said(() => capnp.sizeAt(bytes, indexes)), what);
      forms.set(form, forms.get(form) + 1);
    }
    if (answer === 'Done') {
      const copy = hex(flat);
      for (const [form, message] of [[capnp, framed([copy])], [capnp.segments, [copy]], [capnp.words, copy]]) {
        assert.equal(Object.values(form.sizeAt(message, [])).join(), wordsOfPart(flat), what);
        assert.equal(hexOf((form.canonicalizeFlatAt ?? form.canonicalizeAt)(message, [])), flat, what);
      }
      // the least limit on words that a part fits: one word less is refused. A frame may have no more words than that, either
      let least = 0;
      while (said(() => capnp.segments.digestAt(segments, indexes, { words: least })) === '!ReadLimitExceeded') least++;
      assert.equal(hexOf(capnp.segments.digestAt(segments, indexes, { words: least })), digest, what);
      assert.ok(least > 0, what);
      if (segments.length === 1) {
        assert.equal(hexOf(capnp.words.canonicalizeAt(segments[0], indexes, { words: least })), flat, what);
        assert.throws(() => capnp.words.canonicalizeAt(segments[0], indexes, { words: least - 1 }), { code: 'ReadLimitExceeded', pointer: undefined }, what);
      }
    }
    // bytes after the frame, and limits that the part doesn't fit
    const longer = new Uint8Array(bytes.length + 5000);
    longer.set(bytes);
    assert.equal(said(() => hexOf(capnp.canonicalizeFlatAt(longer, indexes, { words: Infinity }))), wanted(flat), what);
    assert.throws(() => capnp.digestAt(bytes, indexes, { words: 0 }), { code: 'MessageTooLong' });
    count++;
  }
  const one = hex('00000000000001000100000022000000' + '4164610000000000'), frame = framed([one]);
  for (const [form, message] of [[capnp, frame], [capnp.segments, [one]], [capnp.words, one]]) {
    for (const path of ['0', 0, null, undefined, {}, [0.5], ['0'], [1n], [NaN]]) assert.throws(() => form.digestAt(message, path), TypeError);
    for (const path of [[-1], [2 ** 32], [0, 1e100]]) assert.throws(() => form.sizeAt(message, path), RangeError);
    assert.throws(() => (form.canonicalizeFlatAt ?? form.canonicalizeAt)('text', [0]), TypeError);
    assert.throws(() => form.sizeAt(message, [0], { nesting: MAX_NESTING + 1 }), RangeError);
    assert.throws(() => (form.canonicalizeFlatAt ?? form.canonicalizeAt)(message, Array(100000).fill(0)), { code: 'NoSuchPlace', pointer: undefined });
    assert.equal(hexOf((form.canonicalizeFlatAt ?? form.canonicalizeAt)(message, [0])), '01000000220000004164610000000000');
  }
  // what isn't a message of segments or of raw words
  for (const call of [capnp.segments.canonicalizeFlatAt, capnp.segments.digestAt, capnp.segments.sizeAt]) {
    assert.throws(() => call(one, [0]), TypeError);
    assert.throws(() => call([], [0]), { code: 'InvalidSegmentId', pointer: undefined });
    assert.throws(() => call([one, one.subarray(0, 12)], [0]), { code: 'SegmentIsNotWholeWords', pointer: undefined });
  }
  for (const call of [capnp.words.canonicalizeAt, capnp.words.digestAt, capnp.words.sizeAt]) {
    assert.throws(() => call([one], [0]), TypeError);
    assert.throws(() => call(one.subarray(0, 12), [0]), { code: 'SegmentIsNotWholeWords', pointer: undefined });
  }
  passed('parts of messages', count);
  assert.deepEqual([count, ...forms.values()], [70, 70, 175, 70]);
});

test('the extent of messages', () => {
  let count = 0;
  for (const [name, frame, answer, ...numbers] of rowsOf('library/rows/extents.txt')) {
    const bytes = hex(frame), segments = segmentsOf(bytes), wanted = answer === 'Done' ? numbers.join() : `!${answer}`;
    const shown = ({ depth, words, capabilities, cost }) => [depth, words, capabilities, cost].join();
    assert.equal(said(() => shown(capnp.validate(bytes))), wanted, name);
    assert.equal(said(() => shown(capnp.segments.validate(segments))), wanted, name);
    if (segments.length === 1) assert.equal(said(() => shown(capnp.words.validate(segments[0]))), wanted, name);
    if (answer === 'Done') {
      // limits that are just enough, and just too small
      const [depth, , , cost] = numbers.map(Number), least = { nesting: depth, words: Math.max(cost, segments.reduce((sum, it) => sum + it.length / 8, 0)) };
      assert.equal(shown(capnp.segments.validate(segments, least)), wanted, name);
      if (depth) assert.throws(() => capnp.segments.validate(segments, { ...least, nesting: depth - 1 }), { code: 'MessageIsTooDeeplyNestedOrContainsCycles' }, name);
      if (least.words === cost) assert.throws(() => capnp.segments.validate(segments, { ...least, words: cost - 1 }), CanonicalError, name);
    }
    count++;
  }
  passed('extents', count);
  assert.ok(count > 7);
});

test('packed bytes', () => {
  let count = 0;
  for (const [name, packed, unpacked] of rowsOf('library/rows/packed.txt')) {
    assert.equal(said(() => hexOf(capnp.unpack(hex(packed), { words: Infinity }))), refusal(unpacked), name);
    count++;
  }
  const large = hex('00ff'.repeat(4));
  assert.throws(() => capnp.unpack(large, { words: 1023 }), { code: 'MessageTooLong' });
  assert.equal(capnp.unpack(large, { words: 1024 }).length, 8192);
  passed('packed bytes', count);
});

function answer(command, parts, limits) {
  const one = parts[0] ?? new Uint8Array(0);
  switch (command) {
    case 'canon': return hexOf(capnp.segments.canonicalizeFlat(parts, limits));
    case 'framed-canon': return hexOf(capnp.segments.canonicalize(parts, limits));
    case 'size': return Object.values(capnp.segments.size(parts, limits)).join();
    case 'check': {
      const fault = capnp.segments.check(parts, limits);
      assert.equal(capnp.segments.isCanonical(parts, limits), fault === null);
      return fault ? (fault.reason === Reason.WordsBehind ? 'after' : 'no') : 'yes';
    }
    case 'framed-check': return capnp.check(one, limits) ? 'no' : 'yes';
    case 'unframe': return String(capnp.frameSize(one, limits));
    default: throw new Error(command);
  }
}

test('vectors', () => {
  let count = 0, deep = 0;
  for (const [command, nesting, words, parts, wanted] of vectors()) {
    const isDeep = Number(nesting) > MAX_NESTING, limits = { nesting: Math.min(Number(nesting), MAX_NESTING), words: BigInt(words) };
    const segments = parts === '-' ? [] : parts.split(',').map(hex);
    const got = said(() => answer(command, segments, limits));
    if (isDeep && /Nest/.test(got)) {
      // the message needs more levels than the package has
      assert.throws(() => answer(command, segments, { ...limits, nesting: Number(nesting) }), RangeError);
      deep++;
      continue;
    }
    // `front` says that the segment starts with canonical words, and nothing about those after them
    if (wanted === 'front') assert.ok(got === 'yes' || got === 'after', `${command} ${parts}`);
    else assert.equal(got === 'after' ? 'no' : got, wanted, `${command} ${nesting} ${words} ${parts.slice(0, 200)}`);
    count++;
  }
  passed(`vectors (${deep} others need more than ${MAX_NESTING} levels)`, count);
  assert.ok(count > 8900);
});

test('places of broken pointers', () => {
  const calls = [['validate'], ['canonicalize', 'digest'], ['size']];
  let count = 0;
  for (const [name, frame, reading, nesting, words, code, segment, word] of rowsOf('library/rows/places.txt')) {
    const bytes = hex(frame), segments = segmentsOf(bytes), isSound = code === 'Done', way = Number(reading);
    const limits = { nesting: Number(nesting), words: Number(words) }, wanted = isSound ? 'sound' : `${code} ${segment} ${word}`;
    const messages = [[capnp.segments, segments]];
    if (segments.length === 1) messages.push([capnp.words, segments[0]]);
    // the limit on words holds for the frame too
    if (limits.words >= segments.reduce((sum, it) => sum + it.length / 8, 0)) messages.push([capnp, bytes]);
    for (const [form, message, call] of messages.flatMap(([form, message]) => calls[way].map((it) => [form, message, form[it]]))) {
      const broken = form.locate(message, way, limits);
      assert.equal(broken ? `${broken.code} ${broken.segment} ${broken.word}` : 'sound', wanted, `${name} ${reading}`);
      let thrown;
      try {
        call(message, limits);
      } catch (error) {
        thrown = error;
      }
      assert.equal(thrown ? `${thrown.code} ${thrown.pointer.segment} ${thrown.pointer.word}` : 'sound', wanted, `${name} ${reading}`);
      if (broken) {
        assert.equal(`${broken}`, thrown.message);
        assert.equal(thrown.message, `${code} at segment ${segment}, word ${word}: ${broken.text}`);
        assert.equal(thrown.number, Refusal[code]);
        assert.ok(thrown instanceof CanonicalError && broken instanceof capnp.Broken);
      }
      count++;
    }
  }
  passed('places of broken pointers', count);
  assert.ok(count > 1400);
});

test('refusals of no pointer', () => {
  const frame = person(), cut = frame.subarray(0, 20), half = [frame.subarray(0, 12)];
  for (const call of [capnp.canonicalize, capnp.canonicalizeFlat, capnp.digest, capnp.check, capnp.size, capnp.validate]) {
    assert.throws(() => call(cut), { code: 'Truncated', pointer: undefined, message: /^Truncated: / });
    assert.throws(() => call(new Uint8Array(0)), { code: 'NoMessage', pointer: undefined });
  }
  for (const reading of Object.values(Reading)) {
    assert.throws(() => capnp.locate(cut, reading), { code: 'Truncated', pointer: undefined });
    assert.throws(() => capnp.locate(frame, reading, { words: 3 }), { code: 'MessageTooLong', pointer: undefined });
    assert.throws(() => capnp.segments.locate(half, reading), { code: 'SegmentIsNotWholeWords', pointer: undefined });
    assert.equal(capnp.locate(frame, reading), null);
    assert.equal(`${capnp.segments.locate([], reading)}`, `${new CanonicalError(44, { pointer: { segment: 0, word: 0 } }).message}`);
  }
  assert.throws(() => capnp.canonicalizeFlatAt(frame, [7]), { code: 'NoSuchPlace', pointer: undefined });
  // more bytes than an address has room for
  assert.throws(() => capnp.words.validate(new Uint8Array(2 ** 31)), { code: 'AllocationFailed', pointer: undefined });
  for (const it of [undefined, null, 3, -1, '0', 'Value', frame]) assert.throws(() => capnp.locate(frame, it), TypeError);
  const error = new CanonicalError(55, { pointer: { segment: 2, word: 17 } });
  assert.equal(error.message, 'MessageContainsOutOfBoundsPointer at segment 2, word 17: a pointer points outside its segment');
  assert.deepEqual(error.at(3, 40).pointer, { segment: 2, word: 17 });
  assert.equal(error.at(3, 40).message, `message 3 at byte 40: ${error.message}`);
  passed('refusals of no pointer', 1);
});

/** What capnp_canon writes for the message in a frame, which has this number; and whether it is a yes. */
function answerTo({ command, isFlat, path, limits }, frame, number) {
  switch (command) {
    case 'canon': {
      if (!path) return [isFlat ? capnp.canonicalizeFlat(frame, limits) : capnp.canonicalize(frame, limits), true];
      const words = capnp.canonicalizeFlatAt(frame, path, limits);
      return [isFlat ? words : framed([words]), true];
    }
    case 'size': {
      const { words, capabilities } = path ? capnp.sizeAt(frame, path, limits) : capnp.size(frame, limits);
      return [`words ${words} caps ${capabilities}\n`, true];
    }
    case 'digest': return [`${hexOf(path ? capnp.digestAt(frame, path, limits) : capnp.digest(frame, limits))}  -:${number}\n`, true];
    case 'validate': {
      const { depth, words, capabilities } = capnp.validate(frame, limits);
      return [`sound: depth ${depth}, words ${words}, capabilities ${capabilities}\n`, true];
    }
    default: {
      const fault = capnp.check(frame, limits);
      return [fault ? `not canonical: ${fault}\n` : 'canonical\n', !fault];
    }
  }
}

/** The output, first line of errors and status that capnp_canon would have; undefined if its arguments have no like here. */
function run(args, input) {
  const [command, ...rest] = args, limits = {};
  let isFlat = false, isPacked = false, path;
  while (rest.length) {
    const it = rest.shift();
    if (it === '--flat' && command === 'canon') isFlat = true;
    else if (it === '--packed') isPacked = true;
    else if (it === '--at' && /^\d+(\.\d+)*$/.test(rest[0])) path = rest.shift().split('.').map(Number);
    else if (it === '--nesting' && /^-?\d+$/.test(rest[0]) && rest[0] >= -(2 ** 31) && rest[0] <= MAX_NESTING) limits.nesting = Number(rest.shift());
    else if (it === '--words' && rest[0] === 'none') limits.words = (rest.shift(), Infinity);
    else if (it === '--words' && /^\d+$/.test(rest[0]) && BigInt(rest[0]) < 2n ** 64n) limits.words = BigInt(rest.shift());
    else return undefined;
  }
  const output = [];
  let isYes = true, message = 1, at = 0;
  const done = (status, error) => ({ output: Buffer.concat(output).toString('hex'), status, error });
  try {
    for (const frame of isPacked ? capnp.packedFrames(input, limits) : capnp.frames(input, limits)) {
      try {
        const [written, isGood] = answerTo({ command, isFlat, path, limits }, frame, message);
        output.push(Buffer.from(written));
        isYes &&= isGood;
      } catch (error) {
        throw error instanceof CanonicalError ? error.at(message, at) : error;
      }
      at += frame.length;
      message++;
    }
    return done(isYes ? 0 : 1);
  } catch (error) {
    if (!(error instanceof CanonicalError)) throw error;
    return done(2, error);
  }
}

test('streams', () => {
  let count = 0, left = 0;
  for (const it of ['peer', 'worked', 'validate'].flatMap((name) => jsonl(`streams/${name}.jsonl`))) {
    const isPlain = ['canon', 'check', 'size', 'digest', 'validate'].includes(it.args[0]) && !it.files && it.input !== undefined;
    const isAlike = it.status !== 2 || /^capnp_canon: message \d+ at byte \d+: refused /.test(it.stderr);
    const got = isPlain && isAlike ? run(it.args, hex(it.input)) : undefined;
    if (!got) {
      left++;
      continue;
    }
    // rows from C++ Cap'n Proto don't say why a message isn't canonical
    const hasReasons = it.args[0] !== 'check' || Buffer.from(it.output, 'hex').includes(':');
    const shown = (text) => (hasReasons ? text : Buffer.from(text, 'hex').toString().replace(/: .*/g, ''));
    assert.equal(shown(got.output), shown(it.output), it.name);
    assert.equal(got.status, it.status, it.name);
    if (got.error) {
      const { place, code, looksLike, pointer } = got.error, where = pointer ? ` at segment ${pointer.segment}, word ${pointer.word}` : '';
      const said = it.stderr.split('\n')[0], refused = `capnp_canon: message ${place.message} at byte ${place.byte}: refused ${code}`;
      // not each row has the pointer
      assert.equal(said.includes(' at segment ') ? refused + where : refused, said, it.name);
      assert.ok(got.error.message.startsWith(`message ${place.message} at byte ${place.byte}: ${code}${where}: `), it.name);
      const looks = /look(?:s)? like ([^\n,;.]*)/.exec(it.stderr);
      if (looks && looksLike) assert.ok(looks[1].includes(looksLike.replace('canonical ', '').replace(' canonical', '')), `${it.name}: ${it.stderr} ${looksLike}`);
    }
    count++;
  }
  passed(`streams (${left} others have files, other options or other errors)`, count);
  assert.ok(count > 550);
});

const person = () => hex('00000000040000000000000003000000111111111111111100000000000000800000000000000000');

test('arguments', () => {
  const frame = person(), wanted = hexOf(capnp.canonicalize(frame));
  assert.equal(hexOf(capnp.canonicalize(Buffer.from(frame))), wanted);
  assert.equal(hexOf(capnp.canonicalize(frame.buffer)), wanted);
  assert.equal(hexOf(capnp.canonicalize(new DataView(frame.buffer))), wanted);
  const shared = new SharedArrayBuffer(frame.length + 3);
  new Uint8Array(shared).set(frame, 3);
  assert.equal(hexOf(capnp.canonicalize(new Uint8Array(shared, 3))), wanted);
  // bytes of another realm
  for (const given of vm.runInNewContext('[new ArrayBuffer(40), new SharedArrayBuffer(40), new Uint8Array(40)]')) {
    new Uint8Array(given.buffer ?? given).set(frame);
    assert.equal(hexOf(capnp.canonicalize(given)), wanted);
  }
  for (const it of [7, undefined, frame, new WebAssembly.Module(hex('0061736d01000000'))]) assert.throws(() => use(it), TypeError);
  const more = new Uint8Array(frame.length + 10000);
  more.set(frame);
  for (const call of [capnp.canonicalize, capnp.canonicalizeFlat]) assert.equal(hexOf(call(more)), hexOf(call(frame)));
  assert.deepEqual(capnp.size(more), capnp.size(frame));
  assert.deepEqual(capnp.check(more), capnp.check(frame));
  for (const it of ['text', 7, null, undefined, [1, 2], {}]) {
    assert.throws(() => capnp.canonicalize(it), TypeError);
    assert.throws(() => capnp.isCanonical(it), TypeError);
    assert.throws(() => capnp.frames(it), TypeError);
    assert.throws(() => capnp.segments.size(it === undefined ? it : [it]), TypeError);
  }
  for (const it of [frame, frame.buffer, 'text', 3, null, undefined]) assert.throws(() => capnp.segments.check(it), TypeError);
  for (const limits of [null, 7, 'x', { nesting: 1.5 }, { nesting: '64' }, { nesting: NaN }, { words: 1.5 }, { words: NaN }, { words: '7' }, { nested: 7 }]) {
    assert.throws(() => capnp.canonicalize(frame, limits), TypeError);
    assert.throws(() => capnp.frames(frame, limits), TypeError);
  }
  for (const limits of [{ nesting: 1025 }, { nesting: 2 ** 31 }, { nesting: -(2 ** 31) - 1 }, { words: -1 }, { words: -1n }, { words: 2n ** 64n }]) {
    assert.throws(() => capnp.isCanonical(frame, limits), RangeError);
    assert.throws(() => capnp.unpack(frame, limits), RangeError);
  }
  assert.throws(() => capnp.check(frame, { nesting: 1025 }), /1024 levels/);
  assert.equal(hexOf(capnp.canonicalize(frame, { words: Infinity, nesting: 1024 })), wanted);
  assert.throws(() => capnp.canonicalize(frame, { words: 3 }), { name: 'CanonicalError', code: 'MessageTooLong', number: Refusal.MessageTooLong });
  assert.match(capnp.version(), /^\d+\.\d+\.\d+$/);
  passed('arguments', 1);
});

test('errors and faults', () => {
  // each name and text is the library's; no other number has one
  for (const [code, number] of Object.entries(Refusal)) {
    const error = new CanonicalError(number);
    assert.equal(error.code, code);
    assert.match(error.message, new RegExp(`^${code}: [a-z].{10}`));
  }
  for (const number of [0, 4, 1000, 2 ** 32 - 1]) assert.equal(new CanonicalError(number).code, '');
  const twice = new Uint8Array(87);
  twice.set(person());
  twice.set(person(), 40);
  const seen = [];
  assert.throws(() => {
    for (const frame of capnp.frames(twice)) seen.push(frame.length);
  }, (error) => error instanceof CanonicalError && error instanceof Error && /^message 3 at byte 80: Truncated: /.test(error.message)
    && error.number === 19 && error.place.message === 3 && error.place.byte === 80 && `${error}` === `CanonicalError: ${error.message}`);
  assert.deepEqual(seen, [40, 40]);
  const fault = capnp.check(hex('00000000030000000000000002000000000000000000000000000000000000000'.slice(0, 64)));
  assert.equal(fault.reason, Reason.DataSection);
  assert.equal(`${fault}`, `${fault.text} at segment 0, word 2`);
  for (const number of Object.values(Reason)) assert.ok(new fault.constructor(number, 0, 0).text.length > 8);
  for (const number of [0, 15, 2 ** 32 - 1]) assert.equal(new fault.constructor(number, 0, 0).text, '');
  const looks = { text: Buffer.from('hello, this is text'), gzip: hex('1f8b0800000000000003'), zstd: hex('28b52ffd00000000'), bzip2: Buffer.from('BZh9\x001AY&'), xz: hex('fd377a585a000004'), 'a zip archive': hex('504b030414000000') };
  for (const [name, bytes] of Object.entries(looks)) {
    assert.equal(capnp.looksLike(bytes), name);
    assert.throws(() => capnp.canonicalize(bytes), { looksLike: name, message: new RegExp(`; they look like ${name}$`) });
  }
  assert.equal(capnp.looksLike(hex('0000000003000000ffffffffffffffff')), undefined);
  assert.equal(capnp.looksLike(hex('100203110211ff')), 'packed messages');
  assert.equal(capnp.looksLike(capnp.canonicalizeFlat(hex('00000000030000000000000002000000111111111111111100000000000000ff'))), undefined);
  passed('errors and faults', 1);
});

test('streams in pieces', async () => {
  const frame = person();
  const cut = (all, step) => Array.from({ length: Math.ceil(all.length / step) }, (_, i) => all.subarray(i * step, (i + 1) * step));
  for (const step of [1, 7, 40, 41, 1000]) {
    let count = 0;
    for await (const it of capnp.framesFrom(cut(Buffer.concat(Array(25).fill(frame)), step))) {
      assert.equal(hexOf(it), hexOf(frame));
      count++;
    }
    assert.equal(count, 25);
  }
  // memory that is used again for each piece; the second of three pieces waits, because it doesn't end the frame
  async function* reused(again, ends) {
    for (let i = 0; i < 5; i++) {
      for (let from = 0, number = 0; number < ends.length; from = ends[number++]) {
        const piece = frame.subarray(from, ends[number]);
        again.fill(0xee);
        again.set(piece);
        yield again.subarray(0, piece.length);
      }
    }
  }
  for (const again of [new Uint8Array(40), Buffer.alloc(40), Buffer.allocUnsafe(40)]) {
    for (const ends of [[25, 40], [25, 30, 40], [3, 4, 9, 39, 40]]) {
      let count = 0;
      for await (const it of capnp.framesFrom(reused(again, ends))) assert.equal(hexOf(it), hexOf(frame)) ?? count++;
      assert.equal(count, 5);
    }
  }
  // what a table announces may never come: too many words are refused at once, and a cut stream at its end
  const endless = async function* () {
    yield hex('00000000ffffff00');
    for (;;) yield new Uint8Array(1 << 16);
  };
  const all = async (pieces, limits) => {
    const found = [];
    for await (const it of capnp.framesFrom(pieces, limits)) found.push(it.length);
    return found;
  };
  await assert.rejects(all(endless()), { message: /^message 1 at byte 0: MessageTooLong: / });
  await assert.rejects(all([hex('ffffffff00000000')]), { code: 'TooManySegments' });
  await assert.rejects(all([frame, frame.subarray(0, 39)]), { message: /^message 2 at byte 40: Truncated: / });
  await assert.rejects(all([frame, frame.subarray(0, 3)]), { message: /^message 2 at byte 40: Truncated: / });
  await assert.rejects(all(['text']), TypeError);
  assert.throws(() => capnp.framesFrom([], { nesting: 'x' }), TypeError);
  assert.deepEqual(await all([]), []);
  // many segments, in pieces
  const many = framed(Array.from({ length: 512 }, (_, i) => new Uint8Array(8 * (i % 3))));
  for (const step of [3, 64, 4096]) assert.deepEqual(await all(cut(many, step)), [many.length]);
  passed('streams in pieces', 1);
});

/** Packs words, one run after another, as the specification says; `most` is the largest count. */
function packed(bytes, most = 255) {
  const to = [];
  const zero = (at) => bytes.subarray(at, at + 8).every((it) => it === 0), whole = (at) => bytes.subarray(at, at + 8).every((it) => it !== 0);
  for (let at = 0; at < bytes.length;) {
    const word = bytes.subarray(at, at + 8), tag = word.reduce((sum, it, bit) => sum | (it ? 1 << bit : 0), 0), is = tag === 0 ? zero : whole;
    let count = 0;
    at += 8;
    to.push(tag, ...word.filter((it) => it));
    if (tag !== 0 && tag !== 255) continue;
    while (count < most && at + 8 * count < bytes.length && is(at + 8 * count)) count++;
    to.push(count, ...(tag ? bytes.subarray(at, at + 8 * count) : []));
    at += 8 * count;
  }
  return new Uint8Array(to);
}

/** What has only the reader of a ReadableStream, and no iterator. */
const readerOnly = (stream) => ({ getReader: () => stream.getReader() });
const collected = async (pieces, limits) => {
  const found = [];
  for await (const it of capnp.packedFramesFrom(pieces, limits)) found.push(hexOf(it));
  return found;
};

test('packed streams', async () => {
  let count = 0;
  const rows = rowsOf('library/rows/streams.txt');
  assert.equal(rows.length, 18);
  for (const [name, shown, wanted, end] of rows) {
    const parts = shown.split(',').map(hex), stream = hex(shown.replaceAll(',', '')), frames = wanted === '-' ? [] : wanted.split(',');
    const byte = frames.reduce((sum, it) => sum + it.length / 2, 0);
    const checked = async (what, iterated) => {
      const found = [];
      let said = 'Done';
      try {
        for await (const it of iterated) found.push(hexOf(it));
      } catch (error) {
        if (!(error instanceof CanonicalError)) throw error;
        said = error.code;
        assert.deepEqual(error.place, { message: frames.length + 1, byte }, `${name}, ${what}`);
      }
      assert.deepEqual([found, said], [frames, end], `${name}, ${what}`);
      count++;
    };
    await checked('at once', capnp.packedFrames(stream));
    for (const step of [1, 2, 3, 7, 64]) await checked(`by ${step}`, capnp.packedFramesFrom(Array.from({ length: Math.ceil(stream.length / step) }, (_, i) => stream.subarray(i * step, (i + 1) * step))));
    await checked('as a stream', capnp.packedFramesFrom(new Blob([stream]).stream()));
    await checked('as a reader', capnp.packedFramesFrom(readerOnly(new Blob([stream]).stream())));
    // a frame is there before the packed bytes after it are requested, and not before its own are
    let given = 0;
    const slowly = function* () {
      for (const it of stream) {
        given++;
        yield Uint8Array.of(it);
      }
    };
    let number = 0, before = 0;
    try {
      for await (const it of capnp.packedFramesFrom(slowly())) {
        before += parts[number++].length;
        // the count after its last word needn't be there
        assert.ok(given === before || given === before - 1, `${name}: ${given} of ${before}`);
        assert.equal(hexOf(it), frames[number - 1]);
      }
    } catch (error) {
      assert.equal(error.code, end);
    }
    assert.equal(number, frames.length);
  }
  passed('packed streams', count);
});

test('packed streams of any messages', async () => {
  let count = 0, state = 7;
  const drawn = (below) => (state = (state * 48271) % 2147483647) % below;
  const frames = rowsOf('library/rows/messages.txt').map(([, frame]) => hex(frame)).filter((it) => said(() => capnp.frameSize(it)) === it.length);
  for (let time = 0; time < 200; time++) {
    const chosen = Array.from({ length: 1 + drawn(12) }, () => frames[drawn(frames.length)]), all = Buffer.concat(chosen), most = drawn(3) ? 255 : drawn(4);
    // each message is packed by itself, or runs go over from one to the next
    const stream = drawn(2) ? packed(all, most) : Buffer.concat(chosen.map((it) => packed(it, most))), pieces = [];
    for (let at = 0; at < stream.length;) pieces.push(stream.subarray(at, (at += drawn(1 + drawn(100)))));
    const wanted = chosen.map(hexOf);
    assert.equal(hexOf(capnp.unpack(stream)), hexOf(all));
    assert.deepEqual(Array.from(capnp.packedFrames(stream), hexOf), wanted);
    assert.deepEqual(await collected(pieces), wanted);
    count++;
  }
  passed('packed streams of any messages', count);
});

test('long packed streams', async () => {
  const words = 500_000, frame = framed([new Uint8Array(8 * words)]), limits = { words };
  for (let at = 16, state = 1; at < frame.length; at++) frame[at] = at % 4096 < 2048 ? (state = (state * 48271) % 2147483647) : 0;
  const stream = Buffer.concat([packed(frame), packed(frame), packed(person())]), wanted = [frame, frame, person()];
  for (const step of [stream.length, 1 << 16, 999_999]) {
    const pieces = Array.from({ length: Math.ceil(stream.length / step) }, (_, i) => stream.subarray(i * step, (i + 1) * step));
    let number = 0;
    for await (const it of capnp.packedFramesFrom(pieces, limits)) assert.equal(Buffer.compare(it, wanted[number++]), 0);
    assert.equal(number, 3);
  }
  assert.throws(() => Array.from(capnp.packedFrames(stream, { words: words - 1 })), { message: /^message 1 at byte 0: MessageTooLong: / });
  // what a table announces may never come
  const before = process.memoryUsage().arrayBuffers;
  assert.throws(() => Array.from(capnp.packedFrames(hex('f0ffffffff0000'), { words: Infinity })), { code: 'Truncated', place: { message: 1, byte: 0 } });
  await assert.rejects(collected([hex('f0ffffffff'), hex('0000')], { words: Infinity }), { code: 'Truncated' });
  assert.ok(process.memoryUsage().arrayBuffers - before < 1 << 22);
  assert.throws(() => Array.from(capnp.packedFrames(hex('0affff7f'))), { code: 'TooManySegments', place: { message: 1, byte: 0 } });
  // two packed bytes stand for frames without end, one by one
  const zeros = hex('00ff'.repeat(1000));
  let number = 0;
  for (const it of capnp.packedFrames(zeros)) number += it.length === 8;
  assert.equal(number, 256_000);
  passed('long packed streams', 1);
});

test('two packed streams at the same time', () => {
  // a call with a large message in between makes the package take another instance
  const large = framed([new Uint8Array(10_000_000)]), frame = person(), stream = Buffer.concat(Array(6).fill(packed(frame)));
  large.set(hex('01000000' + '05004800'), 8);
  const one = capnp.packedFrames(stream), other = capnp.packedFrames(stream.subarray(0, stream.length - 1));
  for (let time = 0; time < 6; time++) {
    assert.equal(hexOf(one.next().value), hexOf(frame));
    assert.equal(hexOf(other.next().value), hexOf(frame));
    assert.throws(() => capnp.canonicalize(large, { words: 3_000_000, nesting: 0 }), CanonicalError);
  }
  assert.ok(one.next().done);
  // the frame is whole, but not the count after its last word
  assert.throws(() => other.next(), { code: 'Truncated', place: { message: 7, byte: 6 * frame.length } });
  passed('two packed streams at the same time', 1);
});

test('streams that end early', async () => {
  const frame = person(), frames = Buffer.concat([frame, frame]), both = { framesFrom: frames, packedFramesFrom: packed(frames) };
  for (const [name, bytes] of Object.entries(both)) {
    for (const wrapped of [(it) => it, readerOnly]) {
      // leaving the loop cancels the stream
      let cancelled = 0;
      const endless = new ReadableStream({ pull: (controller) => controller.enqueue(bytes), cancel: () => void cancelled++ });
      for await (const it of capnp[name](wrapped(endless))) {
        assert.equal(hexOf(it), hexOf(frame));
        break;
      }
      assert.equal(cancelled, 1, name);
      assert.equal(endless.locked, false, name);
      // an error of the stream is the caller's
      let times = 0;
      const broken = new ReadableStream({ pull: (controller) => (times++ ? controller.error(new Error('gone')) : controller.enqueue(bytes)) });
      const found = [];
      await assert.rejects(async () => {
        for await (const it of capnp[name](wrapped(broken))) found.push(hexOf(it));
      }, { message: 'gone' });
      assert.deepEqual(found, [hexOf(frame), hexOf(frame)]);
    }
    for (const it of [undefined, null, 7, {}, bytes, ['text'], [7]]) {
      await assert.rejects(async () => {
        for await (const frame of capnp[name](it)) assert.fail(frame);
      }, TypeError);
    }
    for (const limits of [{ nesting: 'x' }, 7]) assert.throws(() => capnp[name]([], limits), TypeError);
    assert.throws(() => capnp[name]([], { words: -1 }), RangeError);
  }
  for (const it of ['text', undefined, [1]]) assert.throws(() => capnp.packedFrames(it), TypeError);
  passed('streams that end early', 1);
});

test('the size of a frame from its first bytes', async () => {
  let count = 0;
  for (const [name, frame] of rowsOf('library/rows/messages.txt')) {
    const bytes = hex(frame);
    if (bytes.length < 8 || said(() => capnp.frameSize(bytes)) !== bytes.length) continue;
    // each answer is more than there is, until the frame is whole; from its table on it is the frame's size
    const table = Math.ceil((4 + 4 * (new DataView(bytes.buffer).getUint32(0, true) + 1)) / 8) * 8;
    for (let held = 0; held <= bytes.length; held++) {
      const wanted = capnp.frameSizeFromPrefix(bytes.subarray(0, held));
      assert.equal(wanted, held < 4 ? 8 : held < table ? table : bytes.length, `${name} ${held}`);
      count++;
    }
    const least = segmentsOf(bytes).reduce((sum, it) => sum + it.length / 8, 0);
    assert.equal(capnp.frameSizeFromPrefix(bytes, { words: least }), bytes.length);
    assert.throws(() => capnp.frameSizeFromPrefix(bytes.subarray(0, table), { words: least - 1 }), { code: 'MessageTooLong' });
  }
  assert.throws(() => capnp.frameSizeFromPrefix(hex('00020000')), { code: 'TooManySegments' });
  assert.equal(capnp.frameSizeFromPrefix(hex('00000000ffffffff'), { words: Infinity }), 8 + 8 * (2 ** 32 - 1));
  assert.throws(() => capnp.frameSizeFromPrefix('text'), TypeError);
  passed('sizes from first bytes', count);
  assert.ok(count > 1000);
});

test('raw words hash to the same', () => {
  const wanted = createHash('sha256').update(capnp.canonicalizeFlat(person())).digest('hex');
  const copy = capnp.canonicalize(person());
  assert.equal(createHash('sha256').update(copy.subarray(8)).digest('hex'), wanted);
  assert.ok(copy.buffer.byteLength === copy.length);
  passed('raw words', 1);
});

test('hostile frames', () => {
  let state = 1, count = 0;
  const drawn = (below) => (state = (state * 48271) % 2147483647) % below;
  for (const [, frame] of rowsOf('library/rows/messages.txt')) {
    for (let time = 0; time < 300; time++) {
      const bytes = hex(frame).slice();
      for (let turns = drawn(4); turns && bytes.length; turns--) bytes[drawn(bytes.length)] ^= 1 << drawn(8);
      const cut = drawn(5) ? bytes : bytes.subarray(0, drawn(bytes.length + 1));
      const copy = said(() => hexOf(capnp.canonicalize(cut, { words: 10000 })));
      said(() => capnp.check(cut));
      said(() => capnp.size(cut));
      said(() => capnp.unpack(cut));
      if (copy[0] !== '!') {
        assert.equal(hexOf(capnp.canonicalize(hex(copy), { words: 20000 })), copy);
        assert.ok(capnp.isCanonical(hex(copy)));
        assert.equal(said(() => hexOf(capnp.canonicalizeFlat(cut, { words: 10000 }))), hexOf(hex(copy).subarray(8)));
      }
      count++;
    }
  }
  assert.equal(count, 3000);
  passed('hostile frames', count);
});

test('the deepest messages', () => {
  const cycle = hex('0000000001000000fcffffff00000100'), limits = { nesting: MAX_NESTING };
  assert.throws(() => capnp.canonicalize(cycle, limits), { code: 'MessageIsTooDeeplyNestedOrContainsCycles' });
  assert.throws(() => capnp.size(cycle, limits), { code: 'MessageIsTooDeeplyNested' });
  assert.equal(capnp.isCanonical(cycle, limits), false);
  // chains of structs, of lists of pointers and of lists of structs, like tests/release/stack.c
  const chains = { structs: '0000000000000100', 'lists of pointers': '010000000e000000', 'lists of structs': '010000000f0000000400000000000100' };
  for (const [name, word] of Object.entries(chains)) {
    for (const levels of [MAX_NESTING, MAX_NESTING + 1]) {
      const message = hex(`${word.repeat(levels)}0000000000000000`), isRead = levels === MAX_NESTING;
      for (const call of [capnp.words.canonicalize, capnp.words.size]) {
        if (isRead) call(message, limits);
        else assert.throws(() => call(message, limits), { code: /Nest/ }, name);
      }
      said(() => capnp.words.check(message, limits));
      // the pointer below the last level
      const place = { segment: 0, word: (MAX_NESTING * word.length) / 16 };
      for (const reading of Object.values(Reading)) {
        const broken = capnp.words.locate(message, reading, limits);
        assert.deepEqual(broken && { segment: broken.segment, word: broken.word }, isRead ? null : place, name);
      }
      if (!isRead) assert.throws(() => capnp.words.canonicalize(message, limits), { pointer: place });
    }
  }
  // a call from deep within the stack of a caller ends with an error of the engine, and the next one works
  const message = hex(`${chains.structs.repeat(MAX_NESTING)}0000000000000000`), wanted = hexOf(capnp.words.canonicalize(message, limits));
  let ends = 0;
  const deep = (left) => {
    try {
      if (left) return deep(left - 1);
      return hexOf(capnp.words.canonicalize(message, limits));
    } catch (error) {
      if (!(error instanceof RangeError)) throw error;
      ends++;
      return undefined;
    }
  };
  for (let levels = 1000; levels < 20000; levels += 20) deep(levels);
  assert.ok(ends > 0);
  assert.equal(hexOf(capnp.words.canonicalize(message, limits)), wanted);
  passed('deepest messages', 3);
});

test('memory is given back', () => {
  const words = 5_000_000, bytes = new Uint8Array(8 + 8 * words), view = new DataView(bytes.buffer);
  view.setUint32(4, words, true);
  view.setUint32(8, 1, true);
  view.setUint32(12, ((words - 1) << 3) | 5, true);
  bytes.fill(7, 16);
  assert.equal(capnp.isCanonical(bytes), true);
  assert.equal(capnp.size(bytes).words, words - 1);
  const kept = () => called((lib) => lib.memory.buffer.byteLength);
  for (let time = 0; time < 40; time++) {
    const copy = capnp.canonicalize(bytes);
    assert.equal(copy.length, bytes.length);
    if (time === 0) assert.equal(Buffer.compare(copy, bytes), 0);
    // the instance of the call is gone
    assert.ok(kept() < 1 << 20, `${kept()}`);
  }
  // more than 2 GB is refused before it is copied
  const huge = new Uint8Array(2 ** 31 + 8);
  new DataView(huge.buffer).setUint32(4, 2 ** 28, true);
  for (const call of [capnp.canonicalize, capnp.check, capnp.size]) assert.throws(() => call(huge, { words: Infinity }), { code: 'AllocationFailed' });
  for (const call of [capnp.segments.size, capnp.segments.canonicalize]) assert.throws(() => call([huge]), { code: 'AllocationFailed' });
  assert.throws(() => capnp.words.size(huge), { code: 'AllocationFailed' });
  assert.equal(capnp.frameSize(huge, { words: Infinity }), huge.length);
  // bytes after a frame aren't copied
  new DataView(huge.buffer).setUint32(4, 1, true);
  assert.equal(capnp.canonicalize(huge).length, 16);
  // what a refused call took is given back too
  assert.throws(() => capnp.canonicalize(bytes, { nesting: 0 }), { code: /Nest/ });
  assert.ok(kept() < 1 << 20);
  assert.throws(() => capnp.unpack(hex('00ff'.repeat(2_200_000)), { words: Infinity }), { code: 'AllocationFailed' });
  assert.ok(kept() <= 64 << 20);
  // a list that 100 pointers lead to is copied 100 times
  const le32 = (...numbers) => Buffer.from(new Uint32Array(numbers).buffer).toString('hex');
  const pointers = Array.from({ length: 100 }, (_, i) => le32(((99 - i) << 2) | 1, (100 << 3) | 5)).join('');
  const shared = hex(`${le32(0, 201)}0000000000006400${pointers}${'11'.repeat(800)}`);
  assert.equal(capnp.canonicalize(shared).length, 8 + 8 * 10101);
  assert.equal(capnp.canonicalizeFlat(shared).length, 8 * 10101);
  assert.deepEqual(capnp.size(shared), { words: 10100, capabilities: 0 });
  passed('memory', 1);
});
