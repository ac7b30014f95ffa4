// Uses each name of index.d.ts: `tsc --strict --noEmit` checks it.
import * as capnp from '../../bindings/js/index.js';
import { use } from '../../bindings/js/core.js';
import { init, digestHex } from '../../bindings/js/init.js';
import { Broken, CanonicalError, Extent, FrameBytes, FrameStream, OwnBytes, Words, Fault, Limits, MAX_NESTING, Pieces, Pointer, Reading, Reason, Refusal, Size } from '../../bindings/js/index.js';

export async function all(frame: Uint8Array, buffer: ArrayBuffer, pieces: AsyncIterable<Uint8Array>, stream: ReadableStream<Uint8Array>): Promise<string> {
  const limits: Limits = { nesting: MAX_NESTING, words: 2n ** 40n };
  const copy: Uint8Array = capnp.canonicalize(frame, limits);
  const flat: Uint8Array = capnp.canonicalizeFlat(buffer);
  // raw words are a type, and what is stored gets it
  const made: Words[] = [capnp.canonicalizeFlat(frame), capnp.canonicalizeFlatAt(frame, [0]), capnp.segments.canonicalizeFlat([frame]), capnp.segments.canonicalizeFlatAt([frame], []), capnp.words.canonicalize(flat), capnp.words.canonicalizeAt(flat, []), frame as Words];
  const own: OwnBytes = made[0], plain: Uint8Array = made[1], given: FrameBytes[] = [frame, buffer, own.subarray(8), new DataView(buffer), new SharedArrayBuffer(8)];
  const signature: ArrayBuffer = await crypto.subtle.sign('Ed25519', {} as CryptoKey, made[2]);
  const frames: FrameStream = capnp.frameStream(limits), hexed: string = capnp.digestHex(frame) + capnp.words.digestHex(made[3]) + capnp.segments.digestHex([frame]) + digestHex(frame);
  const isSame: boolean = capnp.equals(frame, copy) && capnp.words.equals(made[4], flat, limits) && capnp.segments.equals([frame], []);
  for await (const it of capnp.framesFrom(stream.pipeThrough<OwnBytes>(frames))) capnp.digest(it);
  stream.pipeThrough(capnp.packedFrameStream()).pipeTo(new WritableStream<Uint8Array>());
  await init(new URL('file:///module.wasm')).then(() => init(new Response(buffer))).then(() => init(fetch('')));
  if (plain.length + given.length + signature.byteLength && isSame) return hexed;
  const digest: Uint8Array = capnp.digest(buffer, limits);
  const fault: Fault | null = capnp.check(copy, { words: Infinity });
  const isCanonical: boolean = capnp.isCanonical(copy) && capnp.words.isCanonical(flat) && capnp.segments.isCanonical([flat]);
  const { words, capabilities }: Size = capnp.size(frame);
  let text = `${words} ${capabilities} ${isCanonical} ${capnp.frameSize(frame)} ${capnp.looksLike(frame) ?? ''} ${capnp.version()}`;
  if (fault && fault.reason === Reason.Padding) text += `${fault.text} ${fault.segment} ${fault.word} ${fault}`;
  for (const it of capnp.frames(capnp.unpack(frame))) text += it.length;
  for await (const it of capnp.framesFrom(pieces, limits)) text += it.byteLength;
  text += capnp.segments.canonicalize([frame, buffer]).length + capnp.segments.canonicalizeFlat(new Set([frame])).length + capnp.segments.size([]).words;
  text += `${digest.length} ${capnp.segments.digest([frame]).length} ${capnp.words.digest(flat).length}`;
  const after: OwnBytes = capnp.digestWith(buffer, frame, limits), packed: OwnBytes = capnp.pack(frame);
  text += `${after.length} ${packed.length} ${capnp.digestWithAt(buffer, frame, [0]).length} ${capnp.segments.digestWith(buffer, [frame]).length} ${capnp.words.digestWithAt(buffer, flat, []).length}`;
  text += `${capnp.segments.check([])} ${capnp.words.check(flat)} ${capnp.words.size(flat).words} ${capnp.words.canonicalize(flat).length}`;
  const { depth, cost }: Extent = capnp.validate(frame, limits);
  text += `${depth} ${cost} ${capnp.segments.validate([frame]).words} ${capnp.words.validate(flat).capabilities} ${capnp.frameSizeFromPrefix(frame)}`;
  text += `${capnp.canonicalizeFlatAt(frame, [0, 1]).length} ${capnp.digestAt(frame, new Set([0]), limits).length} ${capnp.sizeAt(frame, []).words}`;
  text += `${capnp.segments.canonicalizeFlatAt([frame], [0, 1]).length} ${capnp.segments.digestAt(new Set([buffer]), [], limits).length} ${capnp.segments.sizeAt([], []).words}`;
  text += `${capnp.words.canonicalizeAt(flat, [0, 1]).length} ${capnp.words.digestAt(buffer, new Set([0]), limits).length} ${capnp.words.sizeAt(flat, []).capabilities}`;
  const reading: Reading = Reading.Canonical, broken: Broken | null = capnp.locate(frame, reading, limits);
  const place: Pointer | null = capnp.segments.locate([frame], Reading.Size) ?? capnp.words.locate(frame, Reading.Value, limits) ?? broken;
  if (broken) text += `${broken.code === 'UnknownPointerType'} ${broken.number === Refusal.InvalidSegmentId} ${broken.text} ${broken} ${place?.segment} ${place?.word}`;
  const all: Pieces[] = [pieces, [frame, buffer], stream];
  for (const it of all) for await (const packed of capnp.packedFramesFrom(it, limits)) text += packed.length;
  for await (const it of capnp.framesFrom(stream)) text += it.length;
  for (const it of capnp.packedFrames(frame, { words: 7 })) text += it.length;
  use(new WebAssembly.Module(buffer));
  try {
    return text;
  } catch (error) {
    if (!(error instanceof CanonicalError)) throw error;
    const { code, number, place, looksLike, pointer } = error.at(1, 0);
    return `${code === 'Truncated'} ${number === Refusal.Truncated} ${place?.message} ${place?.byte} ${looksLike} ${pointer?.segment} ${pointer?.word}`;
  }
}

declare const words: Words;
// @ts-expect-error raw words aren't a frame
capnp.canonicalize(words);
// @ts-expect-error nor here
capnp.canonicalizeFlat(capnp.canonicalizeFlat(new Uint8Array(0)));
// @ts-expect-error nor here
capnp.digest(capnp.words.canonicalize(words));
// @ts-expect-error nor here
capnp.digestHex(words);
// @ts-expect-error nor here
capnp.equals(new Uint8Array(0), words);
// @ts-expect-error nor here
capnp.check(words);
// @ts-expect-error nor here
capnp.isCanonical(words);
// @ts-expect-error nor here
capnp.size(words);
// @ts-expect-error nor here
capnp.validate(words);
// @ts-expect-error nor here
capnp.walk(words, 7);
// @ts-expect-error nor here
capnp.locate(words, Reading.Value);
// @ts-expect-error nor here
capnp.digestAt(words, [0]);
// @ts-expect-error nor here
capnp.frameSize(words);
// @ts-expect-error nor here
capnp.frames(words);
// @ts-expect-error they aren't packed
capnp.unpack(words);
// @ts-expect-error bytes aren't known to be raw words
const unknown: Words = new Uint8Array(0);
// @ts-expect-error text isn't bytes
capnp.canonicalize('text');
// @ts-expect-error a limit that there isn't
capnp.check(new Uint8Array(0), { depth: 7 });
// @ts-expect-error a path of texts
capnp.digestAt(new Uint8Array(0), ['0']);
// @ts-expect-error bytes aren't segments
capnp.segments.digestAt(new Uint8Array(0), [0]);
// @ts-expect-error segments aren't raw words
capnp.words.digestAt([new Uint8Array(0)], [0]);
// @ts-expect-error there is no such reading
capnp.locate(new Uint8Array(0), 3);
// @ts-expect-error bytes aren't pieces
capnp.packedFramesFrom(new Uint8Array(0));
// @ts-expect-error bytes aren't segments
capnp.segments.check(new Uint8Array(0));
