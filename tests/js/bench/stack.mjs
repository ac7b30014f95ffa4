// stack.mjs: how many bytes of the module's stack a level of nesting takes, and how many levels the engine's own stack has room for.
import { readFileSync } from 'node:fs';

const STACK = 786432, LIMIT = 1n << 40n;
const module = new WebAssembly.Module(readFileSync(new URL('../../../bindings/js/capnp_canonical.wasm', import.meta.url)));
const chains = { structs: '0000000000000100', 'lists of pointers': '010000000e000000', 'lists of structs': '010000000f0000000400000000000100' };
const calls = {
  copy: (exports, at, size, base, to) => exports.capnp_canonical_words_copy(at, size, 1 << 30, LIMIT, to, size + 64, base),
  check: (exports, at, size, base) => exports.capnp_canonical_words_check(at, size, 1 << 30, LIMIT, base + 16, base),
  size: (exports, at, size, base) => exports.capnp_canonical_words_size(at, size, 1 << 30, LIMIT, base, base + 8),
  validate: (exports, at, size, base) => exports.capnp_canonical_words_validate(at, size, 1 << 30, LIMIT, base),
  locate: (exports, at, size, base) => exports.capnp_canonical_words_locate(at, size, 1 << 30, LIMIT, 1, base),
};

/** The bytes of the stack that a call over a chain wrote. */
function taken(call, word, levels) {
  const { exports } = new WebAssembly.Instance(module, {}), base = exports.capnp_canonical_heap_base(), at = base + 32;
  const words = Buffer.from(`${word.repeat(levels)}0000000000000000`, 'hex'), to = at + words.length + 64;
  exports.capnp_canonical_heap(to + words.length + 64);
  new Uint8Array(exports.memory.buffer, at, words.length).set(words);
  new Uint8Array(exports.memory.buffer, 0, STACK).fill(0xa7);
  const answer = calls[call](exports, at, words.length, base, to);
  if (answer) throw new Error(`answer ${answer}`);
  return STACK - new Uint8Array(exports.memory.buffer, 0, STACK).findIndex((it) => it !== 0xa7);
}

for (const call of Object.keys(calls)) {
  for (const [name, word] of Object.entries(chains)) {
    let low = 1, high = 1 << 16, why;
    while (low < high) {
      const middle = (low + high + 1) >> 1;
      try {
        taken(call, word, middle);
        low = middle;
      } catch (error) {
        high = middle - 1;
        why = error.message;
      }
    }
    console.log(`${call}, ${name}: ${(taken(call, word, 400) - taken(call, word, 100)) / 300} bytes a level; ${low} levels, then ${why}`);
  }
}
