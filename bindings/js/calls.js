// The calls. index.d.ts says what each takes, returns and throws.
import { Broken, CanonicalError, Fault, Kind, Reading, Reason, Refusal } from './answers.js';
import { ANSWERS, MAX_NESTING, MOST, Refused, called, lend, lendFew, lendPath, lendSegments, number64, reaches, seen } from './library.js';

export { Broken, CanonicalError, Fault, Kind, MAX_NESTING, Reading, Reason, Refusal };

// What is passed.

const DEFAULTS = Object.freeze({ nesting: 64, words: 8388608n });
const NO_LIMIT = 2n ** 64n - 1n;
/** A frame has no more segments. */
const MOST_SEGMENTS = 512;

function bytesOf(given, what) {
  if (given instanceof Uint8Array) return given;
  if (ArrayBuffer.isView(given)) return new Uint8Array(given.buffer, given.byteOffset, given.byteLength);
  // also those of another realm, such as a test's
  if (/^\[object (Shared)?ArrayBuffer\]$/.test(Object.prototype.toString.call(given))) return new Uint8Array(given);
  throw new TypeError(`${what} must be bytes: a Uint8Array, a Buffer, an ArrayBuffer or a view of one`);
}

function partsOf(segments) {
  if (typeof segments !== 'object' || segments === null || ArrayBuffer.isView(segments) || typeof segments[Symbol.iterator] !== 'function') {
    throw new TypeError('segments must be a list of bytes');
  }
  return Array.from(segments, (it) => bytesOf(it, 'a segment'));
}

function pathOf(path) {
  if (typeof path !== 'object' || path === null || typeof path[Symbol.iterator] !== 'function') {
    throw new TypeError('a path must be a list of indexes');
  }
  return Array.from(path, (index) => {
    if (!Number.isInteger(index)) throw new TypeError(`an index must be a whole number, not ${String(index)}`);
    if (index < 0 || index >= 2 ** 32) throw new RangeError(`an index of ${index}`);
    return index;
  });
}

function readingOf(reading) {
  if (!Object.values(Reading).includes(reading)) throw new TypeError('a reading must be one of `Reading`');
  return reading;
}

function limitsOf(given) {
  if (given === undefined) return DEFAULTS;
  if (typeof given !== 'object' || given === null) throw new TypeError('limits must be an object, such as { nesting: 64, words: 8388608 }');
  for (const key of Object.keys(given)) if (key !== 'nesting' && key !== 'words') throw new TypeError(`there is no limit \`${key}\``);
  const { nesting = 64, words = 8388608 } = given;
  if (!Number.isInteger(nesting)) throw new TypeError(`nesting must be a whole number, not ${String(nesting)}`);
  if (nesting < -(2 ** 31)) throw new RangeError(`a nesting limit of ${nesting}`);
  if (nesting > MAX_NESTING) throw new RangeError(`a nesting limit of ${nesting}: the stack has room for ${MAX_NESTING} levels`);
  return { nesting, words: wordsOf(words) };
}

function wordsOf(words) {
  if (words === 8388608) return DEFAULTS.words;
  if (words === Infinity) return NO_LIMIT;
  if (typeof words !== 'bigint' && !Number.isInteger(words)) throw new TypeError(`words must be a whole number, or Infinity, not ${String(words)}`);
  const limit = BigInt(words);
  if (limit < 0n || limit > NO_LIMIT) throw new RangeError(`a limit of ${words} words`);
  return limit;
}

// Calls of the library.

const noMemory = () => new Refused(Refusal.AllocationFailed);

/** Has a call write a copy: first into about as many bytes as the message has, and if these are too few, into as many as it says. */
function copied(lib, call, given, limits) {
  if (!given) throw noMemory();
  const { end } = given;
  for (let { room } = given; ;) {
    const answer = call(given.first, given.second, limits.nesting, limits.words, end, room, lib.base) >>> 0;
    const written = number64(lib, lib.base);
    if (answer === 0) return lib.bytes.slice(end, end + written);
    if (answer !== Refusal.NoRoom || written <= room) throw new Refused(answer);
    room = written;
    if (room >= MOST || !reaches(lib, end + room)) throw noMemory();
  }
}

/** The digits of a digest. */
function hexOf(bytes) {
  return Array.from(bytes, (it) => it.toString(16).padStart(2, '0')).join('');
}

function areSame(words, others) {
  let at = 0;
  while (at < words.length && words[at] === others[at]) at++;
  return at === words.length && at === others.length;
}

/** The number of bytes of a SHA-256. */
const DIGEST = 32;

function digested(lib, call, given, limits) {
  if (!call) throw new TypeError('this module has no digests: it is the small one');
  if (!given) throw noMemory();
  const { base } = lib;
  const answer = call(given.first, given.second, limits.nesting, limits.words, base) >>> 0;
  if (answer !== 0) throw new Refused(answer);
  return seen(lib).bytes.slice(base, base + DIGEST);
}

/** The fault, or null. */
function checked(lib, call, given, limits) {
  if (!given) throw noMemory();
  const { base } = lib;
  const answer = call(given.first, given.second, limits.nesting, limits.words, base + 16, base) >>> 0;
  if (answer !== 0) throw new Refused(answer);
  const { bytes, view } = seen(lib);
  return bytes[base + 16] ? null : new Fault(view.getUint32(base, true), number64(lib, base + 8), view.getUint32(base + 4, true));
}

function sized(lib, call, given, limits) {
  if (!given) throw noMemory();
  const { base } = lib;
  const answer = call(given.first, given.second, limits.nesting, limits.words, base, base + 8) >>> 0;
  if (answer !== 0) throw new Refused(answer);
  return { words: number64(lib, base), capabilities: seen(lib).view.getUint32(base + 8, true) };
}

function validated(lib, call, given, limits) {
  if (!given) throw noMemory();
  const { base } = lib;
  const answer = call(given.first, given.second, limits.nesting, limits.words, base) >>> 0;
  if (answer !== 0) throw new Refused(answer);
  const depth = seen(lib).view.getUint32(base + 24, true);
  return { depth, words: number64(lib, base), capabilities: number64(lib, base + 8), cost: number64(lib, base + 16) };
}

/** The pointer at which the message is broken if it is read in this way, or null. */
function located(lib, call, given, limits, reading) {
  if (!given) throw noMemory();
  const { base } = lib;
  const answer = call(given.first, given.second, limits.nesting, limits.words, reading, base) >>> 0;
  if (answer !== 0) throw new Refused(answer);
  const { view } = seen(lib), number = view.getUint32(base, true);
  return number === 0 ? null : new Broken(number, number64(lib, base + 8), view.getUint32(base + 4, true));
}

/** The size of an entry of the list of objects, in bytes. */
const ENTRY = 48;

/** The entry at this address. */
function objectAt({ view }, at) {
  const number = (offset) => view.getUint32(at + offset, true);
  return {
    // all bits of the number are set if there is no parent
    parent: number(4) === 0xffffffff ? -1 : number(0) + number(4) * 2 ** 32,
    pointer: { segment: number(8), word: number(24) },
    segment: number(16),
    word: number(28),
    kind: number(32),
    count: number(36),
    capability: number(40),
    dataWords: view.getUint16(at + 44, true),
    pointers: view.getUint16(at + 46, true),
  };
}

/** The objects of a message, at most `most` of them, the number of all, and the pointer at which the message is broken, or null. */
function walked(lib, form, given, limits, most) {
  if (!given || !reaches(lib, given.end + ENTRY * most)) throw noMemory();
  const { base } = lib;
  const answer = lib.calls[form.walk](given.first, given.second, limits.nesting, limits.words, given.end, most, base) >>> 0;
  const count = number64(lib, base);
  const objects = Array.from({ length: Math.min(count, most) }, (_, number) => objectAt(seen(lib), given.end + ENTRY * number));
  if (answer === 0 || answer === Refusal.NoRoom) return { objects, count, broken: null };
  // refuses if the bytes are no message
  return { objects, count, broken: located(lib, lib.calls[form.locate], given, limits, Reading.Value) };
}

/** A call for a part of the message: with a path, which is in the memory in front of the message. */
function callAt(lib, call, path) {
  if (!call) return undefined;
  return (first, second, ...more) => call(first, second, lendPath(lib, path), path.length, ...more);
}

/** The number of segments by the first 4 bytes of a frame, and the size of its table in bytes. */
function tableOf(bytes, from = 0) {
  const count = ((bytes[from] | (bytes[from + 1] << 8) | (bytes[from + 2] << 16) | (bytes[from + 3] << 24)) >>> 0) + 1;
  return { count, table: count > MOST_SEGMENTS ? 8 : 8 * Math.ceil((4 + 4 * count) / 8) };
}

/** The size of the frame that starts at `from`. Only its table is copied into the memory, because the call reads no more. */
function measured(lib, bytes, words, from = 0) {
  const left = bytes.length - from;
  const at = lendFew(lib, bytes, from, left < 8 ? left : Math.min(left, tableOf(bytes, from).table));
  if (!at) throw noMemory();
  const answer = lib.calls.frame_size(at, Math.min(left, 0xffffffff), words, lib.base) >>> 0;
  if (answer === Refusal.Truncated && left > 0xffffffff) throw noMemory();
  if (answer !== 0) throw new Refused(answer);
  return number64(lib, lib.base);
}

/** How many bytes of a frame to have before it is whole, if these are its first. Copies only its table. */
function announced(lib, prefix, words) {
  const count = prefix.length < 8 ? prefix.length : Math.min(prefix.length, tableOf(prefix).table);
  const at = lendFew(lib, prefix, 0, count);
  if (!at) throw noMemory();
  const answer = lib.calls.frame_size_from_prefix(at, count, words, lib.base) >>> 0;
  if (answer !== 0) throw new Refused(answer);
  return number64(lib, lib.base);
}

/** The bytes from which to read the frame at their front. If more bytes may follow the frame, finds out where it ends. */
function frameIn(lib, bytes, words) {
  return bytes.length > 4096 ? bytes.subarray(0, measured(lib, bytes, words)) : bytes;
}

/** Copies the frame at the front into the memory, after `before` bytes. */
function lendFrame(lib, bytes, words, before = 0) {
  return lend(lib, frameIn(lib, bytes, words), before);
}

/** The error of a refusal. `bytes` are those that may not be a frame, and `pointer` is the one that is refused. */
function errorOf(number, bytes, pointer) {
  const isOfFrame = bytes && (number === Refusal.TooManySegments || number === Refusal.MessageTooLong || number === Refusal.Truncated);
  return new CanonicalError(number, { looksLike: isOfFrame ? looksLike(bytes) : undefined, pointer });
}

/** Runs a call. Its refusal is thrown as an error. */
function answered(run, bytes) {
  try {
    return called(run);
  } catch (error) {
    throw error instanceof Refused ? errorOf(error.number, bytes) : error;
  }
}

// The forms of a message: what is passed, how it gets into the memory, and the call that finds a broken pointer in it.

const FRAME = { passed: (frame) => bytesOf(frame, 'a frame'), lent: (lib, bytes, words) => lendFrame(lib, bytes, words), locate: 'locate', walk: 'walk' };
const SEGMENTS = { passed: partsOf, lent: (lib, parts) => lendSegments(lib, parts), locate: 'segments_locate', walk: 'segments_walk' };
const WORDS = { passed: (message) => bytesOf(message, 'a message'), lent: (lib, bytes) => lend(lib, bytes), locate: 'words_locate', walk: 'words_walk' };

/** The bytes that may look like something else if they aren't a frame. */
const suspected = (form, passed) => (form === FRAME ? passed : undefined);

/** Finds the pointer at which a message is broken that is read in this way. */
function brokenPointer(form, passed, within, reading) {
  return called((lib) => located(lib, lib.calls[form.locate], form.lent(lib, passed, within.words), within, reading));
}

/** The refusals that are never a pointer's. */
const OF_NO_POINTER = new Set([Refusal.NoRoom, Refusal.AllocationFailed, Refusal.MessageTooLarge]);

/** The place of the pointer at which a call refused a message that it read in this way. Undefined if the refusal is no pointer's. */
function refusedPointer(number, form, passed, within, reading) {
  if (OF_NO_POINTER.has(number)) return undefined;
  try {
    const broken = brokenPointer(form, passed, within, reading);
    return broken ? { segment: broken.segment, word: broken.word } : undefined;
  } catch (error) {
    if (error instanceof Refused) return undefined;
    throw error;
  }
}

/** Runs a call for a message, which it reads in this way, and which gets into the memory by `lent`. */
function asked(form, reading, message, limits, run, lent = form.lent) {
  const passed = form.passed(message), within = limitsOf(limits);
  try {
    return called((lib) => run(lib, lent(lib, passed, within.words), within));
  } catch (error) {
    if (!(error instanceof Refused)) throw error;
    throw errorOf(error.number, suspected(form, passed), refusedPointer(error.number, form, passed, within, reading));
  }
}

/** Puts two messages of a form into the memory, one after the other. Undefined if there is no room for both. */
function lentBoth(lib, form, one, other, words) {
  // finding out where a frame ends writes to the memory
  const [first, second] = form === FRAME ? [frameIn(lib, one, words), frameIn(lib, other, words)] : [one, other];
  const put = form === SEGMENTS ? lendSegments : lend;
  const given = put(lib, first), beside = given && put(lib, second, given.end - lib.base - ANSWERS);
  return beside && reaches(lib, beside.end) ? { given, beside } : undefined;
}

/** Whether two messages have the same canonical words. `flat` makes those of one message. */
function compared(form, name, flat, message, other, limits) {
  const one = form.passed(message), that = form.passed(other), within = limitsOf(limits);
  try {
    return called((lib) => {
      const both = lentBoth(lib, form, one, that, within.words);
      if (!both) throw noMemory();
      const { given, beside } = both;
      const answer = lib.calls[name](given.first, given.second, beside.first, beside.second, within.nesting, within.words, lib.base) >>> 0;
      if (answer !== 0) throw new Refused(answer);
      return seen(lib).bytes[lib.base] !== 0;
    });
  } catch (error) {
    if (!(error instanceof Refused)) throw error;
    // throws as the first of the two does that is refused. None is if there was no memory for both at once
    return areSame(flat(one, limits), flat(that, limits));
  }
}

/** Whether a message is canonical. False also if it is refused. */
function isYes(form, message, limits, run) {
  const passed = form.passed(message), within = limitsOf(limits);
  try {
    return called((lib) => run(lib, form.lent(lib, passed, within.words), within)) === null;
  } catch (error) {
    if (error instanceof Refused) return false;
    throw error;
  }
}

function locatedIn(form, message, reading, limits) {
  const passed = form.passed(message), way = readingOf(reading), within = limitsOf(limits);
  try {
    return brokenPointer(form, passed, within, way);
  } catch (error) {
    throw error instanceof Refused ? errorOf(error.number, suspected(form, passed)) : error;
  }
}

function mostOf(most) {
  if (!Number.isInteger(most)) throw new TypeError(`a number of objects must be a whole number, not ${String(most)}`);
  if (most < 0 || ENTRY * most >= MOST) throw new RangeError(`${most} objects`);
  return most;
}

function walkedIn(form, message, most, limits) {
  const passed = form.passed(message), room = mostOf(most), within = limitsOf(limits);
  return answered((lib) => walked(lib, form, form.lent(lib, passed, within.words), within, room), suspected(form, passed));
}

// Messages in frames.

export function canonicalize(frame, limits) {
  return asked(FRAME, Reading.Canonical, frame, limits, (lib, given, within) => copied(lib, lib.calls.copy, given, within));
}

export function canonicalizeFlat(frame, limits) {
  return asked(FRAME, Reading.Canonical, frame, limits, (lib, given, within) => copied(lib, lib.calls.copy_flat, given, within));
}

export function digest(frame, limits) {
  return asked(FRAME, Reading.Canonical, frame, limits, (lib, given, within) => digested(lib, lib.calls.digest, given, within));
}

export function digestHex(frame, limits) {
  return hexOf(digest(frame, limits));
}

export function digestWith(prefix, frame, limits) {
  return digestedAfter(FRAME, 'digest_with', prefix, frame, limits);
}

export function equals(frame, other, limits) {
  return compared(FRAME, 'equal', canonicalizeFlat, frame, other, limits);
}

export function check(frame, limits) {
  return asked(FRAME, Reading.Value, frame, limits, (lib, given, within) => checked(lib, lib.calls.check, given, within));
}

export function isCanonical(frame, limits) {
  return isYes(FRAME, frame, limits, (lib, given, within) => checked(lib, lib.calls.check, given, within));
}

export function size(frame, limits) {
  return asked(FRAME, Reading.Size, frame, limits, (lib, given, within) => sized(lib, lib.calls.size, given, within));
}

export function validate(frame, limits) {
  return asked(FRAME, Reading.Value, frame, limits, (lib, given, within) => validated(lib, lib.calls.validate, given, within));
}

export function locate(frame, reading, limits) {
  return locatedIn(FRAME, frame, reading, limits);
}

export function walk(frame, most, limits) {
  return walkedIn(FRAME, frame, most, limits);
}

/** Runs a call for the part of the message at the end of a path. */
function askedAt(form, answer, name, message, path, limits) {
  const passed = form.passed(message), indexes = pathOf(path), within = limitsOf(limits);
  return answered((lib) => {
    const given = lentAfter(4 * indexes.length, lib, form, passed, within.words);
    return answer(lib, callAt(lib, lib.calls[name], indexes), given, within);
  }, suspected(form, passed));
}

/** Copies a message into the memory, after `before` bytes for a path. */
function lentAfter(before, lib, form, passed, words) {
  switch (form) {
    case FRAME: return lendFrame(lib, passed, words, before);
    case SEGMENTS: return lendSegments(lib, passed, before);
    default: return lend(lib, passed, before);
  }
}

/** A call that hashes a prefix first, which is in the memory after a path of so many indexes. */
function callAfter(lib, call, prefix, steps = 0) {
  if (!call) return undefined;
  const at = lib.base + ANSWERS + 4 * steps;
  return (...more) => {
    lib.bytes.set(prefix, at);
    return call(at, prefix.length, ...more);
  };
}

function digestedAfter(form, name, prefix, message, limits) {
  const bytes = bytesOf(prefix, 'a prefix').slice();
  return asked(
    form, Reading.Canonical, message, limits,
    (lib, given, within) => digested(lib, callAfter(lib, lib.calls[name], bytes), given, within),
    (lib, passed, limit) => lentAfter(bytes.length, lib, form, passed, limit),
  );
}

function digestedAfterAt(form, name, prefix, message, path, limits) {
  const bytes = bytesOf(prefix, 'a prefix').slice(), passed = form.passed(message), indexes = pathOf(path), within = limitsOf(limits);
  return answered((lib) => {
    const given = lentAfter(4 * indexes.length + bytes.length, lib, form, passed, within.words);
    const call = callAfter(lib, lib.calls[name], bytes, indexes.length);
    return digested(lib, call && ((first, second, ...more) => call(first, second, lendPath(lib, indexes), indexes.length, ...more)), given, within);
  }, suspected(form, passed));
}

export function canonicalizeFlatAt(frame, path, limits) {
  return askedAt(FRAME, copied, 'copy_flat_at', frame, path, limits);
}

export function digestAt(frame, path, limits) {
  return askedAt(FRAME, digested, 'digest_at', frame, path, limits);
}

export function digestWithAt(prefix, frame, path, limits) {
  return digestedAfterAt(FRAME, 'digest_with_at', prefix, frame, path, limits);
}

export function sizeAt(frame, path, limits) {
  return askedAt(FRAME, sized, 'size_at', frame, path, limits);
}

// Messages in segments, and in raw words.

export const segments = Object.freeze({
  canonicalize: (list, limits) => asked(SEGMENTS, Reading.Canonical, list, limits, (lib, given, within) => copied(lib, lib.calls.segments_copy, given, within)),
  canonicalizeFlat: (list, limits) => asked(SEGMENTS, Reading.Canonical, list, limits, (lib, given, within) => copied(lib, lib.calls.segments_copy_flat, given, within)),
  digest: (list, limits) => asked(SEGMENTS, Reading.Canonical, list, limits, (lib, given, within) => digested(lib, lib.calls.segments_digest, given, within)),
  digestHex: (list, limits) => hexOf(segments.digest(list, limits)),
  digestWith: (prefix, list, limits) => digestedAfter(SEGMENTS, 'segments_digest_with', prefix, list, limits),
  equals: (list, other, limits) => compared(SEGMENTS, 'segments_equal', segments.canonicalizeFlat, list, other, limits),
  check: (list, limits) => asked(SEGMENTS, Reading.Value, list, limits, (lib, given, within) => checked(lib, lib.calls.segments_check, given, within)),
  isCanonical: (list, limits) => isYes(SEGMENTS, list, limits, (lib, given, within) => checked(lib, lib.calls.segments_check, given, within)),
  size: (list, limits) => asked(SEGMENTS, Reading.Size, list, limits, (lib, given, within) => sized(lib, lib.calls.segments_size, given, within)),
  validate: (list, limits) => asked(SEGMENTS, Reading.Value, list, limits, (lib, given, within) => validated(lib, lib.calls.segments_validate, given, within)),
  canonicalizeFlatAt: (list, path, limits) => askedAt(SEGMENTS, copied, 'segments_copy_flat_at', list, path, limits),
  digestAt: (list, path, limits) => askedAt(SEGMENTS, digested, 'segments_digest_at', list, path, limits),
  digestWithAt: (prefix, list, path, limits) => digestedAfterAt(SEGMENTS, 'segments_digest_with_at', prefix, list, path, limits),
  sizeAt: (list, path, limits) => askedAt(SEGMENTS, sized, 'segments_size_at', list, path, limits),
  locate: (list, reading, limits) => locatedIn(SEGMENTS, list, reading, limits),
  walk: (list, most, limits) => walkedIn(SEGMENTS, list, most, limits),
});

export const words = Object.freeze({
  canonicalize: (message, limits) => asked(WORDS, Reading.Canonical, message, limits, (lib, given, within) => copied(lib, lib.calls.words_copy, given, within)),
  digest: (message, limits) => asked(WORDS, Reading.Canonical, message, limits, (lib, given, within) => digested(lib, lib.calls.words_digest, given, within)),
  digestHex: (message, limits) => hexOf(words.digest(message, limits)),
  digestWith: (prefix, message, limits) => digestedAfter(WORDS, 'words_digest_with', prefix, message, limits),
  equals: (message, other, limits) => compared(WORDS, 'words_equal', words.canonicalize, message, other, limits),
  check: (message, limits) => asked(WORDS, Reading.Value, message, limits, (lib, given, within) => checked(lib, lib.calls.words_check, given, within)),
  isCanonical: (message, limits) => isYes(WORDS, message, limits, (lib, given, within) => checked(lib, lib.calls.words_check, given, within)),
  size: (message, limits) => asked(WORDS, Reading.Size, message, limits, (lib, given, within) => sized(lib, lib.calls.words_size, given, within)),
  validate: (message, limits) => asked(WORDS, Reading.Value, message, limits, (lib, given, within) => validated(lib, lib.calls.words_validate, given, within)),
  canonicalizeAt: (message, path, limits) => askedAt(WORDS, copied, 'words_copy_at', message, path, limits),
  digestAt: (message, path, limits) => askedAt(WORDS, digested, 'words_digest_at', message, path, limits),
  digestWithAt: (prefix, message, path, limits) => digestedAfterAt(WORDS, 'words_digest_with_at', prefix, message, path, limits),
  sizeAt: (message, path, limits) => askedAt(WORDS, sized, 'words_size_at', message, path, limits),
  locate: (message, reading, limits) => locatedIn(WORDS, message, reading, limits),
  walk: (message, most, limits) => walkedIn(WORDS, message, most, limits),
});

// Streams, and packed bytes.

export function frameSize(stream, limits) {
  const bytes = bytesOf(stream, 'a stream'), within = limitsOf(limits);
  return answered((lib) => measured(lib, bytes, within.words), bytes);
}

export function frameSizeFromPrefix(prefix, limits) {
  const bytes = bytesOf(prefix, 'the first bytes of a frame'), within = limitsOf(limits);
  return answered((lib) => announced(lib, bytes, within.words), bytes);
}

export function frames(stream, limits) {
  return framesOf(bytesOf(stream, 'a stream'), limitsOf(limits).words);
}

function* framesOf(bytes, words) {
  const { length } = bytes;
  for (let at = 0, message = 1; at < length; message++) {
    const taken = ofMessage((lib) => measured(lib, bytes, words, at), bytes.subarray(at), message, at);
    yield bytes.subarray(at, at + taken);
    at += taken;
    mustHave(bytes, length);
  }
}

/** Refuses to go on with a stream whose memory was transferred or resized: the rest of it would be lost. */
function mustHave(bytes, length) {
  if (bytes.length !== length) throw new TypeError('the memory of the stream was transferred or resized');
}

/** Runs a call for message `message` of a stream, which is at byte `byte` and begins with these bytes. */
function ofMessage(run, bytes, message, byte) {
  try {
    return called(run);
  } catch (error) {
    if (!(error instanceof Refused)) throw error;
    throw new CanonicalError(error.number, { place: { message, byte }, looksLike: looksLike(bytes) });
  }
}

export function framesFrom(pieces, limits) {
  return foundIn(new Framed(limitsOf(limits).words), pieces);
}

/** What `for await` goes through. A ReadableStream has no iterator in each browser. */
function iterable(pieces) {
  if (pieces?.[Symbol.asyncIterator] || pieces?.[Symbol.iterator] || typeof pieces?.getReader !== 'function') return pieces;
  return piecesOf(pieces.getReader());
}

async function* piecesOf(reader) {
  let hasEnded = false;
  try {
    for (;;) {
      const { done, value } = await reader.read();
      hasEnded = done;
      if (done) return;
      yield value;
    }
  } finally {
    if (!hasEnded) await reader.cancel();
    reader.releaseLock();
  }
}

/** A frame can be refused by its first 4 bytes. */
const FEWEST = 4;

/** The frames of a stream that comes in pieces. */
class Framed {
  constructor(words) {
    this.words = words;
    // the bytes that aren't part of a frame yet: those joined, and the pieces after them
    this.held = new Uint8Array(0);
    this.more = [];
    this.count = 0;
    this.at = 0;
    this.message = 1;
    this.wanted = FEWEST;
  }

  join() {
    const joined = new Uint8Array(this.count);
    let to = 0;
    for (const it of [this.held, ...this.more]) {
      joined.set(it, to);
      to += it.length;
    }
    this.held = joined;
    this.more = [];
  }

  run(call) {
    return ofMessage(call, this.held, this.message, this.at);
  }

  /** The frames that are whole after this piece, in memory of their own. */
  *of(piece) {
    // a copy, because the caller may use the memory of a piece again; `slice` of a Buffer of node makes none
    this.more.push(new Uint8Array(piece));
    this.count += piece.length;
    while (this.count >= this.wanted) {
      if (this.more.length) this.join();
      // what the table announces is the size of the frame; a frame over the limit is refused before it is there
      this.wanted = this.run((lib) => announced(lib, this.held, this.words));
      if (this.count < this.wanted) return;
      const frame = this.held.slice(0, this.wanted);
      this.held = this.held.subarray(this.wanted);
      this.count -= this.wanted;
      this.at += this.wanted;
      this.message++;
      this.wanted = FEWEST;
      yield frame;
    }
  }

  /** Refuses what has begun, because no more pieces come. */
  end() {
    if (!this.count) return;
    this.join();
    this.run((lib) => measured(lib, this.held, this.words));
  }
}

/** The frames that a splitter finds in pieces. */
async function* foundIn(splitter, pieces) {
  for await (const piece of iterable(pieces)) yield* splitter.of(bytesOf(piece, 'a piece of a stream'));
  splitter.end();
}

/**
 * The two ends of a stream of pieces into frames. It looks for a frame when one is requested: a TransformStream that is refused drops
 * the frames that it has already found.
 */
function transformer(splitter) {
  const { readable, writable } = new TransformStream(), reader = readable.getReader();
  let frames = [].values();
  const next = async () => {
    for (;;) {
      const { done, value } = frames.next();
      if (!done) return value;
      const piece = await reader.read();
      if (piece.done) return splitter.end();
      frames = splitter.of(bytesOf(piece.value, 'a piece of a stream'));
    }
  };
  const pull = async (controller) => {
    try {
      const frame = await next();
      if (frame) controller.enqueue(frame);
      else controller.close();
    } catch (error) {
      reader.cancel(error).catch(() => {});
      throw error;
    }
  };
  return { readable: new ReadableStream({ pull, cancel: (reason) => reader.cancel(reason) }, { highWaterMark: 0 }), writable };
}

export function frameStream(limits) {
  return transformer(new Framed(limitsOf(limits).words));
}

export function packedFrameStream(limits) {
  return transformer(new Unpacked(limitsOf(limits).words));
}

export function unpack(packed, limits) {
  const bytes = bytesOf(packed, 'packed bytes'), within = limitsOf(limits);
  return answered((lib) => {
    const given = lend(lib, bytes);
    if (!given) throw noMemory();
    for (let { room } = given; ;) {
      const answer = lib.calls.unpack(given.first, given.second, given.end, room, lib.base) >>> 0;
      const written = number64(lib, lib.base);
      if (answer !== 0 && answer !== Refusal.NoRoom) throw new Refused(answer);
      if (BigInt(written) > 8n * within.words) throw new Refused(Refusal.MessageTooLong);
      if (answer === 0) return lib.bytes.slice(given.end, given.end + written);
      if (written <= room || written >= MOST || !reaches(lib, given.end + (room = written))) throw noMemory();
    }
  });
}

export function pack(frames) {
  const bytes = bytesOf(frames, 'frames');
  return answered((lib) => {
    const given = lend(lib, bytes);
    if (!given) throw noMemory();
    for (let { room } = given; ;) {
      const answer = lib.calls.pack(given.first, given.second, given.end, room, lib.base) >>> 0;
      const written = number64(lib, lib.base);
      if (answer === 0) return lib.bytes.slice(given.end, given.end + written);
      if (answer !== Refusal.NoRoom) throw new Refused(answer);
      if (written >= MOST || !reaches(lib, given.end + (room = written))) throw noMemory();
    }
  });
}

// Packed streams.

/** The size of the smallest table of a frame. */
const SMALLEST = 8;
/** The most bytes that a call unpacks, and the most room for a frame that is made at first: what its table announces may never come. */
const PIECE = 1 << 18;
/** The size of `struct capnp_canonical_unpacking`, which says how far a stream is unpacked. */
const UNPACKING = 6;

/** Unpacks the next of these packed bytes to the front of `to`. Returns how many packed bytes that took, and how many bytes it wrote. */
function unpackedPiece(lib, unpacking, packed, to) {
  const given = lend(lib, packed);
  if (!given || !reaches(lib, given.end + to.length)) throw noMemory();
  const { base } = lib, state = base + 8;
  lib.bytes.set(unpacking, state);
  const written = lib.calls.unpack_piece(state, given.first, given.second, given.end, to.length, base) >>> 0;
  unpacking.set(lib.bytes.subarray(state, state + UNPACKING));
  to.set(lib.bytes.subarray(given.end, given.end + written));
  return { taken: number64(lib, base), written };
}

/** The frames of a packed stream, one after another. */
class Unpacked {
  constructor(words) {
    this.words = words;
    this.unpacking = new Uint8Array(UNPACKING);
    this.message = 0;
    this.byte = 0;
    this.begin();
  }

  /** Begins the next frame: none of it is there. */
  begin() {
    this.message++;
    this.frame = new Uint8Array(SMALLEST);
    this.held = 0;
    this.wanted = SMALLEST;
  }

  /** Runs a call for this frame. */
  run(call) {
    try {
      return called(call);
    } catch (error) {
      throw error instanceof Refused ? this.refused(error.number) : error;
    }
  }

  refused(number) {
    return new CanonicalError(number, { place: { message: this.message, byte: this.byte } });
  }

  /** Makes room for more of the frame, at most for as much as is there. */
  grow() {
    const larger = new Uint8Array(Math.min(this.wanted, this.held + Math.max(this.held, PIECE)));
    larger.set(this.frame);
    this.frame = larger;
  }

  /** Unpacks packed bytes from `at` on until the frame is whole or no bytes are left. Returns where it stopped. */
  goOn(packed, at) {
    while (this.held < this.wanted) {
      if (this.held === this.frame.length) this.grow();
      const to = this.frame.subarray(this.held, this.held + PIECE);
      // a word takes at most ten packed bytes; more of them are copied only if they are needed
      const next = packed.subarray(at, at + 2 + 10 * Math.ceil(to.length / 8));
      const { taken, written } = this.run((lib) => unpackedPiece(lib, this.unpacking, next, to));
      at += taken;
      this.held += written;
      if (written < to.length && at >= packed.length) return at;
      if (this.held === this.wanted) this.wanted = this.run((lib) => announced(lib, this.frame, this.words));
    }
    return at;
  }

  /** The frames that are whole after these packed bytes. */
  *of(packed) {
    const { length } = packed;
    for (let at = 0; ;) {
      at = this.goOn(packed, at);
      if (this.held < this.wanted) return;
      const { frame } = this;
      this.byte += frame.length;
      this.begin();
      yield frame;
      mustHave(packed, length);
    }
  }

  /** Refuses what has begun, because no more packed bytes come. */
  end() {
    const [zeros, more, , , place] = this.unpacking;
    if (this.held || zeros || more || place) throw this.refused(Refusal.Truncated);
  }
}

export function packedFrames(packed, limits) {
  return packedFramesOf(bytesOf(packed, 'packed bytes'), limitsOf(limits).words);
}

function* packedFramesOf(packed, words) {
  const unpacked = new Unpacked(words);
  yield* unpacked.of(packed);
  unpacked.end();
}

export function packedFramesFrom(pieces, limits) {
  return foundIn(new Unpacked(limitsOf(limits).words), pieces);
}

// Help for people.

/** The version of the library, such as `1.1.0`. */
export function version() {
  const number = called((lib) => lib.calls.version() >>> 0);
  return `${Math.floor(number / 10000)}.${Math.floor(number / 100) % 100}.${number % 100}`;
}

/** Whether packed bytes start with what may be the table of a frame. */
function looksPacked(bytes) {
  const word = new Uint8Array(8);
  let at = 1;
  for (let i = 0; i < 8; i++) {
    if (!((bytes[0] >> i) & 1)) continue;
    if (at === bytes.length || bytes[at] === 0) return false;
    word[i] = bytes[at++];
  }
  const view = new DataView(word.buffer), count = view.getUint32(0, true) + 1, length = view.getUint32(4, true);
  return count <= MOST_SEGMENTS && length > 0 && length < 2 ** 29;
}

function looksText(bytes) {
  return bytes.subarray(0, 64).every((it) => it === 9 || it === 10 || it === 13 || (it >= 32 && it !== 127));
}

const BEGINNINGS = [
  ['gzip', 0x1f, 0x8b], ['zstd', 0x28, 0xb5, 0x2f, 0xfd], ['bzip2', 0x42, 0x5a, 0x68], ['xz', 0xfd, 0x37, 0x7a, 0x58], ['a zip archive', 0x50, 0x4b, 3, 4],
];

/** Guesses like capnp_canonical_looks_like of the header, but tests only short bytes for raw words. */
export function looksLike(given) {
  const bytes = bytesOf(given, 'what is refused');
  if (bytes.length < 4) return undefined;
  try {
    called((lib) => measured(lib, bytes, NO_LIMIT));
    return undefined;
  } catch (error) {
    if (!(error instanceof Refused)) throw error;
  }
  for (const [name, ...front] of BEGINNINGS) if (front.every((it, at) => bytes[at] === it)) return name;
  if (looksText(bytes)) return 'text';
  if (bytes.length <= 65536 && words.isCanonical(bytes)) return 'raw canonical words';
  return looksPacked(bytes) ? 'packed messages' : undefined;
}
