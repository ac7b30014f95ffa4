/**
 * Canonical form of Cap'n Proto messages, over the library capnp_canonical compiled to WebAssembly.
 *
 *     import { digestHex } from 'capnp_canonical';
 *     const name = digestHex(frame);  // the SHA-256 of the canonical words
 *
 * You pass a message as a frame, which is what `capnp encode`, capnp::writeMessage and pycapnp's `to_bytes` write, as its segments
 * (`segments`), or as its raw words (`words`). Bytes after a frame are ignored. Packed bytes are unpacked first, by `unpack` or
 * `packedFrames`.
 *
 * Raw words aren't a frame. Read back what `canonicalizeFlat` returns with the calls of `words`. A call that takes a frame may
 * SUCCEED on raw words, and then reads ANOTHER value, because the pointer to a root without pointers is also the table of a frame.
 * TypeScript refuses `Words` there; without a compiler, and for words that were stored, nothing does.
 *
 * A call that is refused throws `CanonicalError`. Arguments of a wrong type throw `TypeError`, and limits that are out of range
 * `RangeError`. No call keeps anything except the module's memory.
 */

/** A Uint8Array, a Buffer, an ArrayBuffer, or a view of one. They are copied into the module's memory. */
export type Bytes = ArrayBufferView | ArrayBuffer | SharedArrayBuffer;

/** Bytes in memory of their own. From TypeScript 5.7 on, which tells them apart, this is `Uint8Array<ArrayBuffer>`. */
export type OwnBytes = ReturnType<Uint8Array['slice']>;

declare const rawWords: unique symbol;

/**
 * The words of a message without the table of a frame: what `canonicalizeFlat` and its like return. They are an ordinary Uint8Array;
 * only a compiler tells them apart, so that a call that takes a frame doesn't take them. Stored words, which are `Bytes` when they
 * are read back, have this type by `bytes as Words`.
 */
export type Words = OwnBytes & { readonly [rawWords]: true };

/** Bytes with a frame at the front: any but `Words`. */
export type FrameBytes = Bytes & { readonly [rawWords]?: never };

/** The limits for reading a message. The defaults are those of C++ and Rust. */
export interface Limits {
  /** How deep structs and lists may be nested; up to `MAX_NESTING`. By default 64. */
  nesting?: number;
  /** How many words of 8 bytes may be read, and how many a frame may have. By default 8,388,608; `Infinity` for no limit. */
  words?: number | bigint;
}

/** The largest nesting limit, 1,024: a larger one throws `RangeError`, because the stack has no room for so deep a message. */
export const MAX_NESTING: number;

/** The numbers of `enum capnp_canonical_answer`. A later library may return further ones. */
export const Refusal: {
  readonly NoRoom: 1;
  readonly NoMessage: 2;
  readonly SegmentIsNotWholeWords: 3;
  readonly TooManySegments: 17;
  readonly MessageTooLong: 18;
  readonly Truncated: 19;
  readonly AllocationFailed: 32;
  readonly CannotCreateACanonicalMessageWithACapability: 33;
  readonly CantHandleNonStructInlineComposite: 34;
  readonly InlineCompositeListsElementsOverrunItsWordCount: 42;
  readonly InlineCompositeListsOfNonStructTypeAreNotSupported: 43;
  readonly InvalidSegmentId: 44;
  readonly MalformedDoubleFarPointer: 45;
  readonly MessageContainsOutOfBoundsPointer: 55;
  readonly MessageIsTooDeeplyNested: 57;
  readonly MessageIsTooDeeplyNestedOrContainsCycles: 58;
  readonly MessageTooLarge: 59;
  readonly NestingLimitExceeded: 60;
  readonly NoSuchPlace: 61;
  readonly ReadLimitExceeded: 62;
  readonly UnknownPointerType: 66;
};

/** The numbers of `enum capnp_canonical_reason`. A later library may return further ones. */
export const Reason: {
  readonly SegmentCount: 1;
  readonly NoPointer: 2;
  readonly FarPointer: 3;
  readonly Capability: 4;
  readonly UnknownPointer: 5;
  readonly EmptyStructPlace: 6;
  readonly ObjectPlace: 7;
  readonly Padding: 8;
  readonly DataSection: 9;
  readonly PointerSection: 10;
  readonly ElementWords: 11;
  readonly ElementData: 12;
  readonly ElementPointers: 13;
  readonly WordsBehind: 14;
};

/** How `locate` reads a message: `Value` as `validate` and `check` do; `Canonical` as the calls that copy and `digest`; `Size` as `size`. */
export const Reading: {
  readonly Value: 0;
  readonly Canonical: 1;
  readonly Size: 2;
};
export type Reading = (typeof Reading)[keyof typeof Reading];

/** What an object of a message is. A list has the format's number of its element size. */
export const Kind: {
  readonly ListOfVoid: 0;
  readonly ListOfBits: 1;
  readonly ListOfBytes: 2;
  readonly ListOfTwoBytes: 3;
  readonly ListOfFourBytes: 4;
  readonly ListOfEightBytes: 5;
  readonly ListOfPointers: 6;
  readonly ListOfStructs: 7;
  readonly Struct: 8;
  readonly Capability: 9;
};
export type Kind = (typeof Kind)[keyof typeof Kind];

/** An object of a message: its kind and place, and the pointer that leads to it. */
export interface MessageObject {
  /** The index of the object that the pointer is in; -1 for the root pointer. */
  readonly parent: number;
  /** The place of the pointer. */
  readonly pointer: Pointer;
  /** The object's segment; 0 for a capability. */
  readonly segment: number;
  /** The position of the object in its segment, in words; in a list of structs, that of the first word after the tag; 0 for a capability. */
  readonly word: number;
  readonly kind: Kind;
  /** The number of elements of a list; otherwise 0. */
  readonly count: number;
  /** The index of a capability; otherwise 0. */
  readonly capability: number;
  /** The number of data words of a struct, or of each element of a list of structs; otherwise 0. */
  readonly dataWords: number;
  /** The number of pointers of a struct, or of each element of a list of structs; otherwise 0. */
  readonly pointers: number;
}

/** The objects of a message. */
export interface Walk {
  /** Each object before those that its own pointers lead to; null pointers and elements of lists of structs aren't among them. */
  readonly objects: MessageObject[];
  /** The number of all objects, which may be more than `most`. */
  readonly count: number;
  /** The pointer at which the message is broken; then the objects are those before it. Otherwise null. */
  readonly broken: Broken | null;
}

/** The place of a pointer in a message. */
export interface Pointer {
  readonly segment: number;
  /** The position in the segment, in words. */
  readonly word: number;
}

/**
 * A call was refused. The message is a sentence, such as
 * `message 2 at byte 40: Truncated: the bytes end inside a frame or a packed word`, or
 * `MessageContainsOutOfBoundsPointer at segment 0, word 17: a pointer points outside its segment`.
 */
export class CanonicalError extends Error {
  constructor(number: number, more?: { place?: { message: number; byte: number }; looksLike?: string; pointer?: Pointer });
  /** A number of `Refusal`, or one that a later library returns. */
  readonly number: number;
  /** The name, such as `Truncated`; empty if the number has none. */
  readonly code: keyof typeof Refusal | '';
  /** In a stream, the number of the message, counted from 1, and the byte where it starts. */
  readonly place?: { message: number; byte: number };
  /** If the bytes are no frame, a guess at what they look like, such as `gzip`. */
  readonly looksLike?: string;
  /**
   * The pointer at which the message is broken. Undefined if the bytes aren't a frame or whole words, if there is no memory, or if the
   * message is too large; and from the calls for a part.
   */
  readonly pointer?: Pointer;
  /** The same error for the message with this number, at this byte of a stream. */
  at(message: number, byte: number): CanonicalError;
}

/** Why and where a message isn't canonical. */
export class Fault {
  private constructor();
  /** A number of `Reason`, or one that a later library returns. */
  readonly reason: number;
  /** The reason in words, such as `padding that isn't zero`. */
  readonly text: string;
  readonly segment: number;
  /** The position in the segment, in words. */
  readonly word: number;
}

/** The pointer at which a message is broken. `String` gives a sentence like that of `CanonicalError`. */
export class Broken implements Pointer {
  private constructor();
  /** Why the pointer is refused: a number of `Refusal`, or one that a later library returns. */
  readonly number: number;
  /** The name of the refusal. */
  readonly code: keyof typeof Refusal | '';
  /** The refusal in words, such as `a pointer points outside its segment`. */
  readonly text: string;
  readonly segment: number;
  readonly word: number;
}

/** What the root of a message leads to, without the root pointer and landing pads. */
export interface Size {
  readonly words: number;
  readonly capabilities: number;
}

/** How deep the value of a message is, how much it holds, and what reading it costs. Numbers from 2^53 on are rounded. */
export interface Extent {
  /** How many structs and lists are nested in each other, at most: the least nesting limit within which the message is sound. */
  readonly depth: number;
  /** The number of words of all objects, without landing pads. An object counts each time a pointer leads to it. */
  readonly words: number;
  readonly capabilities: number;
  /** The number of words that reading the whole value once takes: the least limit `words` within which the message is sound. */
  readonly cost: number;
}

/** Makes the message of the frame at the front canonical. Returns a frame of one segment. */
export function canonicalize(frame: FrameBytes, limits?: Limits): OwnBytes;

/** The same, but returns raw words, without the table of a frame: the bytes to hash or sign. */
export function canonicalizeFlat(frame: FrameBytes, limits?: Limits): Words;

/**
 * Returns the SHA-256 of the canonical words of the message: of the bytes that `canonicalizeFlat` returns. It names the value:
 * messages with equal values have the same.
 */
export function digest(frame: FrameBytes, limits?: Limits): OwnBytes;

/** `digest` in hexadecimal digits of lower case. */
export function digestHex(frame: FrameBytes, limits?: Limits): string;

/**
 * Returns the SHA-256 of `prefix` and then the canonical words. Canonical words don't tell their type: with the 8 bytes of a
 * type id as the prefix, the digest and a signature of it cover the type.
 */
export function digestWith(prefix: Bytes, frame: FrameBytes, limits?: Limits): OwnBytes;

/**
 * Whether two messages have the same value: whether their canonical words are equal. Each is read within the limits, and throws like
 * `canonicalizeFlat` if it is refused. To compare one message with many, compare digests.
 */
export function equals(frame: FrameBytes, other: FrameBytes, limits?: Limits): boolean;

/**
 * Returns null if the message is canonical: one segment, which holds the canonical words of a value and nothing else. Otherwise
 * returns why and where it isn't. For a yes or no, call `isCanonical`.
 */
export function check(frame: FrameBytes, limits?: Limits): Fault | null;

/** Whether the message is canonical. Also false if it is refused, because a limit is exceeded or the bytes are no frame. */
export function isCanonical(frame: FrameBytes, limits?: Limits): boolean;

/** Counts the words and capabilities that the root of the message leads to. */
export function size(frame: FrameBytes, limits?: Limits): Size;

/**
 * Tests whether the message is sound: whether its whole value can be read within both limits. The value may have capabilities. Returns
 * its extent if it is; otherwise the call is refused with the first fault that reading the value meets.
 */
export function validate(frame: FrameBytes, limits?: Limits): Extent;

/**
 * Finds the pointer at which the message is broken, after another call has refused it: the first pointer, in the order of reading, whose
 * object can't be read. `reading` says which call. Returns null if the whole value is read; so also if there was no memory, or the
 * message is too large. A refused call throws an error that has the place already, as its `pointer`.
 */
export function locate(frame: FrameBytes, reading: Reading, limits?: Limits): Broken | null;

/**
 * Lists the structs, lists and capabilities of a message, at most `most` of them. A broken message is listed up to its first broken
 * pointer. Throws only if the bytes are no message, or if there is no memory.
 */
export function walk(frame: FrameBytes, most: number, limits?: Limits): Walk;

/**
 * `canonicalizeFlat` for a part of the message: for the value at the end of a path. In `struct Signed { payload @0
 * :Payload; signature @1 :Data; }` the path `[0]` leads to the payload, whose words can be signed.
 *
 * A path starts at the root pointer. An index leads from a struct to its pointer with this index, which isn't the field's number: only
 * pointers count; from a list of pointers to an element; and from a list of structs to an element, which is a struct. Without indexes
 * it leads to the root pointer. `NoSuchPlace` means that the path leads nowhere. The rest of the message isn't read, and needn't be
 * sound.
 */
export function canonicalizeFlatAt(frame: FrameBytes, path: Iterable<number>, limits?: Limits): Words;

/** `digest` for the part of the message to which the path leads: the SHA-256 of what `canonicalizeFlatAt` returns. */
export function digestAt(frame: FrameBytes, path: Iterable<number>, limits?: Limits): OwnBytes;

/** `digestWith` for the part of the message to which the path leads. */
export function digestWithAt(prefix: Bytes, frame: FrameBytes, path: Iterable<number>, limits?: Limits): OwnBytes;

/** `size` for the part of the message to which the path leads. */
export function sizeAt(frame: FrameBytes, path: Iterable<number>, limits?: Limits): Size;

/** The same calls for a message given as its segments. There may be more of them than a frame can have. */
export const segments: {
  canonicalize(list: Iterable<Bytes>, limits?: Limits): OwnBytes;
  canonicalizeFlat(list: Iterable<Bytes>, limits?: Limits): Words;
  digest(list: Iterable<Bytes>, limits?: Limits): OwnBytes;
  digestHex(list: Iterable<Bytes>, limits?: Limits): string;
  digestWith(prefix: Bytes, list: Iterable<Bytes>, limits?: Limits): OwnBytes;
  equals(list: Iterable<Bytes>, other: Iterable<Bytes>, limits?: Limits): boolean;
  check(list: Iterable<Bytes>, limits?: Limits): Fault | null;
  isCanonical(list: Iterable<Bytes>, limits?: Limits): boolean;
  size(list: Iterable<Bytes>, limits?: Limits): Size;
  validate(list: Iterable<Bytes>, limits?: Limits): Extent;
  canonicalizeFlatAt(list: Iterable<Bytes>, path: Iterable<number>, limits?: Limits): Words;
  digestAt(list: Iterable<Bytes>, path: Iterable<number>, limits?: Limits): OwnBytes;
  digestWithAt(prefix: Bytes, list: Iterable<Bytes>, path: Iterable<number>, limits?: Limits): OwnBytes;
  sizeAt(list: Iterable<Bytes>, path: Iterable<number>, limits?: Limits): Size;
  locate(list: Iterable<Bytes>, reading: Reading, limits?: Limits): Broken | null;
  walk(list: Iterable<Bytes>, most: number, limits?: Limits): Walk;
};

/** The same calls for a message given as its raw words. The copy is raw words too. */
export const words: {
  canonicalize(message: Bytes, limits?: Limits): Words;
  digest(message: Bytes, limits?: Limits): OwnBytes;
  digestHex(message: Bytes, limits?: Limits): string;
  digestWith(prefix: Bytes, message: Bytes, limits?: Limits): OwnBytes;
  equals(message: Bytes, other: Bytes, limits?: Limits): boolean;
  check(message: Bytes, limits?: Limits): Fault | null;
  isCanonical(message: Bytes, limits?: Limits): boolean;
  size(message: Bytes, limits?: Limits): Size;
  validate(message: Bytes, limits?: Limits): Extent;
  canonicalizeAt(message: Bytes, path: Iterable<number>, limits?: Limits): Words;
  digestAt(message: Bytes, path: Iterable<number>, limits?: Limits): OwnBytes;
  digestWithAt(prefix: Bytes, message: Bytes, path: Iterable<number>, limits?: Limits): OwnBytes;
  sizeAt(message: Bytes, path: Iterable<number>, limits?: Limits): Size;
  locate(message: Bytes, reading: Reading, limits?: Limits): Broken | null;
  walk(message: Bytes, most: number, limits?: Limits): Walk;
};

/** The size in bytes of the frame at the front. Reads only its table. */
export function frameSize(stream: FrameBytes, limits?: Limits): number;

/**
 * How many bytes of a stream to have, from the start of a frame on, before `frameSize` finds the frame whole. If the first bytes,
 * `prefix`, contain the table, that is the size of the frame. Otherwise it is the size of the table, or of the smallest table, and more
 * than `prefix` has: read until that many bytes are there, and ask again. Refuses the frame if they tell that it has too many segments,
 * or more than `words` words. Eight bytes can announce a frame of many words: make room for what has arrived.
 */
export function frameSizeFromPrefix(prefix: FrameBytes, limits?: Limits): number;

/**
 * Iterates over the frames of a stream, as views of its bytes. An error says which message it is, and at which byte. Throws `TypeError`
 * if the memory of the stream was transferred or resized since the last frame.
 */
export function frames(stream: FrameBytes, limits?: Limits): Generator<Uint8Array, void, undefined>;

/**
 * A stream that comes in pieces: a stream of node, a ReadableStream such as the body of a response, or anything that `for await` goes
 * through. When the next piece is requested, the memory of the last one may be used again.
 */
export type Pieces = AsyncIterable<Bytes> | Iterable<Bytes> | {
  getReader(): { read(): Promise<{ done: boolean; value?: Bytes }>; cancel(): Promise<void>; releaseLock(): void };
};

/** The same for a stream that comes in pieces. A frame is there as soon as its last byte is. Each has memory of its own. */
export function framesFrom(pieces: Pieces, limits?: Limits): AsyncGenerator<OwnBytes, void, undefined>;

/** What `pipeThrough` of a ReadableStream takes, like a TransformStream of bytes into frames. */
export interface FrameStream {
  readonly readable: ReadableStream<OwnBytes>;
  readonly writable: WritableStream<Bytes>;
}

/**
 * `framesFrom` in the form of a TransformStream: `response.body.pipeThrough(frameStream())` is a stream of frames. A refusal is the
 * error of `readable`, after the frames before it. Node has these classes from 18 on.
 */
export function frameStream(limits?: Limits): FrameStream;

/** The same for a packed stream. */
export function packedFrameStream(limits?: Limits): FrameStream;

/** Unpacks packed bytes to the frames of one or more messages. Refuses with `MessageTooLong` if these are more than `words` words. */
export function unpack(packed: FrameBytes, limits?: Limits): OwnBytes;

/**
 * Packs whole words, such as the frames of one or more messages: what `capnp encode --packed` and C++'s `writePackedMessage` write. Throws
 * if the number of bytes isn't a multiple of 8.
 */
export function pack(frames: FrameBytes): OwnBytes;

/**
 * Iterates over the frames of packed bytes. Unpacks them one by one; each has at most `words` words. An error says which message it is,
 * and at which byte of the unpacked stream. Throws `TypeError` like `frames` if the memory of the stream is transferred or resized.
 */
export function packedFrames(packed: FrameBytes, limits?: Limits): Generator<OwnBytes, void, undefined>;

/** The same for a packed stream that comes in pieces. A frame is there as soon as the packed bytes that it takes are. */
export function packedFramesFrom(pieces: Pieces, limits?: Limits): AsyncGenerator<OwnBytes, void, undefined>;

/** Guesses what bytes are that were refused as a frame, such as `gzip`. `CanonicalError` has the guess already. */
export function looksLike(bytes: Bytes): string | undefined;

/** The version of the library, such as `1.1.0`. */
export function version(): string;
