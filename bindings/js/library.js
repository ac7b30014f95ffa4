// The instance of the WebAssembly module, and its memory.

/** The largest nesting limit. The module's stack and that of the engine have room for so deep a message. */
export const MAX_NESTING = 1024;
/** An instance whose memory grew beyond this is dropped after the call, because memory of WebAssembly never shrinks. */
const KEPT = 64 << 20;
/** A message, a segment or a copy has fewer bytes: C has no larger objects if addresses have 32 bits. */
export const MOST = 2 ** 31;
/** The bytes at the start of the free memory that calls write their answers to. */
export const ANSWERS = 128;

let module, instance;

/** Takes the compiled module that all calls run. */
export function use(compiled) {
  if (!WebAssembly.Module.exports(compiled).some((it) => it.name === 'capnp_canonical_heap')) throw new TypeError('this is another module');
  module = compiled;
  instance = undefined;
}

/** The instance, made if there is none. */
function library() {
  if (!instance) {
    if (!module) throw new Error('capnp_canonical has no module yet: `await init()` first, or call `use`');
    const { exports } = new WebAssembly.Instance(module, {});
    const calls = Object.fromEntries(Object.entries(exports).map(([name, call]) => [name.replace('capnp_canonical_', ''), call]));
    instance = { calls, memory: exports.memory, base: calls.heap_base(), bytes: undefined, view: undefined };
  }
  return instance;
}

/** Runs a call. If it doesn't end, by a trap or because the engine's stack is too small, the instance isn't used again. */
export function called(run) {
  const lib = library();
  let ended = false;
  try {
    const found = run(lib);
    ended = true;
    return found;
  } catch (error) {
    ended = error instanceof Refused;
    throw error;
  } finally {
    if (!ended || lib.memory.buffer.byteLength > KEPT) instance = undefined;
  }
}

/** What a call throws if the library refuses, before the error is made. */
export class Refused {
  constructor(number) {
    this.number = number;
  }
}

/** The memory as it is now: if it grew, earlier views of it are empty. */
export function seen(lib) {
  if (!lib.bytes || lib.bytes.length === 0) {
    lib.bytes = new Uint8Array(lib.memory.buffer);
    lib.view = new DataView(lib.memory.buffer);
  }
  return lib;
}

/** Makes the memory reach to `end`. The library's own memory comes after that. Returns false if there is none. */
export function reaches(lib, end) {
  const has = end <= 0xfffffff0 && lib.calls.heap(end) !== 0;
  seen(lib);
  return has;
}

const up = (at) => Math.ceil(at / 16) * 16;

/**
 * Copies bytes into the memory, after `before` bytes that the caller fills. Returns their address and number, and the address after
 * them, where a copy has `room` bytes.
 */
export function lend(lib, given, before = 0) {
  // the length once, because shared memory can grow meanwhile
  const { length } = given, at = up(lib.base + ANSWERS + before), end = up(at + length), room = Math.min(end - at + 16, MOST - 1);
  if (length >= MOST || !reaches(lib, end + room)) return undefined;
  lib.bytes.set(given.subarray(0, length), at);
  return { first: at, second: length, end, room };
}

/** Writes the indexes of a path into the memory in front of what is lent, which left 4 bytes for each. Returns their address. */
export function lendPath(lib, path) {
  const at = lib.base + ANSWERS;
  path.forEach((index, number) => lib.view.setUint32(at + 4 * number, index, true));
  return at;
}

/**
 * Copies segments into the memory, after `before` bytes that the caller fills and a table of the segments. An entry is two numbers of
 * 64 bits: the address, and the size.
 */
export function lendSegments(lib, segments, before = 0) {
  const table = up(lib.base + ANSWERS + before), start = up(table + 16 * segments.length), lengths = segments.map((it) => it.length);
  const end = lengths.reduce((sum, it) => up(sum + it), start), room = Math.min(end - start + 16, MOST - 1);
  if (lengths.some((it) => it >= MOST) || !reaches(lib, end + room)) return undefined;
  let at = start;
  segments.forEach((given, number) => {
    const entry = table + 16 * number, segment = given.subarray(0, lengths[number]);
    lib.view.setUint32(entry, at, true);
    lib.view.setUint32(entry + 4, 0, true);
    lib.view.setUint32(entry + 8, segment.length, true);
    lib.view.setUint32(entry + 12, 0, true);
    lib.bytes.set(segment, at);
    at = up(at + segment.length);
  });
  return { first: table, second: segments.length, end, room };
}

/** Copies the `count` bytes from `from` on into the memory, one by one. Returns their address. */
export function lendFew(lib, bytes, from, count) {
  const at = lib.base + ANSWERS;
  if (!reaches(lib, up(at + count))) return undefined;
  for (let i = 0; i < count; i++) lib.bytes[at + i] = bytes[from + i];
  return at;
}

/** A number of 64 bits. Those that calls answer fit a number of JavaScript. */
export function number64(lib, at) {
  const { view } = seen(lib);
  return view.getUint32(at, true) + view.getUint32(at + 4, true) * 2 ** 32;
}

/** The text that the call of this name writes for a number. */
export function textOf(call, number) {
  return called((lib) => {
    if (!reaches(lib, lib.base + ANSWERS)) return '';
    const length = lib.calls[call](number, lib.base, ANSWERS) >>> 0;
    return String.fromCharCode(...lib.bytes.subarray(lib.base, lib.base + Math.min(length, ANSWERS - 1)));
  });
}
