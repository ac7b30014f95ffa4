// speed.mjs STREAM: the time of each call of the package over the frames of a stream, in microseconds a message, the least of 15
// rounds. `module` is the module's own call, with the frame already in its memory.
import { readFileSync } from 'node:fs';
import * as capnp from '../../../bindings/js/node.js';

const stream = new Uint8Array(readFileSync(process.argv[2])), frames = [...capnp.frames(stream)];
const { exports } = new WebAssembly.Instance(new WebAssembly.Module(readFileSync(new URL('../../../bindings/js/capnp_canonical.wasm', import.meta.url))), {});
const base = exports.capnp_canonical_heap_base(), start = base + 64, to = (start + stream.length + 15) & ~15;
exports.capnp_canonical_heap(to + 65536);
new Uint8Array(exports.memory.buffer).set(stream, start);
const places = [];
for (const it of frames) places.push([start + it.byteOffset, it.length]);

function least(run) {
  let time = Infinity;
  for (let round = 0; round < 15; round++) {
    const begun = process.hrtime.bigint();
    run();
    time = Math.min(time, Number(process.hrtime.bigint() - begun));
  }
  return (time / 1000 / frames.length).toFixed(3);
}

const each = (call) => () => {
  for (const it of frames) call(it);
};
const inside = (call) => () => {
  for (const [at, count] of places) call(at, count);
};
const calls = {
  canonicalizeFlat: [each(capnp.canonicalizeFlat), inside((at, count) => exports.capnp_canonical_copy_flat(at, count, 64, 8388608n, to, 65536, base))],
  check: [each(capnp.check), inside((at, count) => exports.capnp_canonical_check(at, count, 64, 8388608n, base + 16, base))],
  size: [each(capnp.size), inside((at, count) => exports.capnp_canonical_size(at, count, 64, 8388608n, base, base + 8))],
  frames: [() => {
    for (const it of capnp.frames(stream)) if (!it.length) throw new Error('empty');
  }, inside((at, count) => exports.capnp_canonical_frame_size(at, count, 8388608n, base))],
};
console.log(`${frames.length} messages of ${(stream.length / frames.length).toFixed(0)} bytes; microseconds a message`);
for (const [name, [outer, inner]] of Object.entries(calls)) console.log(`${name}: package ${least(outer)}, module ${least(inner)}`);
