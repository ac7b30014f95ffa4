// What the calls return and throw. The numbers are those of capnp_canonical.h, and the names and texts are the library's.
import { textOf } from './library.js';

export const Refusal = Object.freeze({
  NoRoom: 1,
  NoMessage: 2,
  SegmentIsNotWholeWords: 3,
  TooManySegments: 17,
  MessageTooLong: 18,
  Truncated: 19,
  AllocationFailed: 32,
  CannotCreateACanonicalMessageWithACapability: 33,
  CantHandleNonStructInlineComposite: 34,
  InlineCompositeListsElementsOverrunItsWordCount: 42,
  InlineCompositeListsOfNonStructTypeAreNotSupported: 43,
  InvalidSegmentId: 44,
  MalformedDoubleFarPointer: 45,
  MessageContainsOutOfBoundsPointer: 55,
  MessageIsTooDeeplyNested: 57,
  MessageIsTooDeeplyNestedOrContainsCycles: 58,
  MessageTooLarge: 59,
  NestingLimitExceeded: 60,
  NoSuchPlace: 61,
  ReadLimitExceeded: 62,
  UnknownPointerType: 66,
});

export const Reason = Object.freeze({
  SegmentCount: 1,
  NoPointer: 2,
  FarPointer: 3,
  Capability: 4,
  UnknownPointer: 5,
  EmptyStructPlace: 6,
  ObjectPlace: 7,
  Padding: 8,
  DataSection: 9,
  PointerSection: 10,
  ElementWords: 11,
  ElementData: 12,
  ElementPointers: 13,
  WordsBehind: 14,
});

export const Kind = Object.freeze({
  ListOfVoid: 0,
  ListOfBits: 1,
  ListOfBytes: 2,
  ListOfTwoBytes: 3,
  ListOfFourBytes: 4,
  ListOfEightBytes: 5,
  ListOfPointers: 6,
  ListOfStructs: 7,
  Struct: 8,
  Capability: 9,
});

export const Reading = Object.freeze({ Value: 0, Canonical: 1, Size: 2 });

/** What a refusal says, with the place of a pointer if it is one's. */
function sentence(number, code, pointer) {
  const where = pointer ? ` at segment ${pointer.segment}, word ${pointer.word}` : '';
  return code ? `${code}${where}: ${textOf('write_error_text', number)}` : `refusal ${number}${where}`;
}

export class CanonicalError extends Error {
  constructor(number, { place, looksLike, pointer } = {}) {
    const code = textOf('name', number);
    let text = place ? `message ${place.message} at byte ${place.byte}: ` : '';
    text += sentence(number, code, pointer);
    if (looksLike) text += `; they look like ${looksLike}`;
    super(text);
    this.number = number;
    this.code = code;
    this.place = place;
    this.looksLike = looksLike;
    this.pointer = pointer;
  }

  at(message, byte) {
    return new CanonicalError(this.number, { place: { message, byte }, looksLike: this.looksLike, pointer: this.pointer });
  }
}

// not an own property, so that it isn't shown a second time
Object.defineProperty(CanonicalError.prototype, 'name', { value: 'CanonicalError', configurable: true, writable: true });

export class Fault {
  constructor(reason, segment, word) {
    this.reason = reason;
    this.segment = segment;
    this.word = word;
    Object.freeze(this);
  }

  get text() {
    return textOf('reason_text', this.reason);
  }

  toString() {
    return `${this.text} at segment ${this.segment}, word ${this.word}`;
  }
}

export class Broken {
  constructor(number, segment, word) {
    this.number = number;
    this.segment = segment;
    this.word = word;
    Object.freeze(this);
  }

  get code() {
    return textOf('name', this.number);
  }

  get text() {
    return textOf('write_error_text', this.number);
  }

  toString() {
    return sentence(this.number, this.code, this);
  }
}
