"""The calls on one message."""
from __future__ import annotations

import ctypes
import functools
import warnings
from array import array
from typing import TYPE_CHECKING, Any, Callable, Iterable, List, Optional, Sequence, Tuple, TypeVar, Union

from capnp_canonical._answers import (
    MAX_NESTING, Error, Extent, Fault, Kind, Limits, Object, Reason, Refusal, Size, Walk,
)
from capnp_canonical._library import Lent, RawExtent, RawFault, RawObject, RawPointer, RawSegment, library
from capnp_canonical._library import frame_size as raw_frame_size
from capnp_canonical._looks import looks_like
from capnp_canonical._pycapnp import frame_of
from capnp_canonical._words import Room, Small, Words, must_be_no_words, words_of

if TYPE_CHECKING:
    from _typeshed import ReadableBuffer, WriteableBuffer

    from capnp_canonical._pycapnp import Message

DONE = 0
LIMITS = Limits()
# A limit that is passed by name; None for the one of `limits`.
Bound = Optional[int]
# The default of `most`: how many objects a call lists.
MOST_OBJECTS = 65_536
# Up to this size the room for a copy is as large as all bytes passed, and the frame isn't measured first.
_SMALL = 4096
# The most bytes of a table, which has up to 512 segments.
TABLE = 2056
# The bytes of a SHA-256.
_DIGEST = 32
# By how many bytes what is refused as a frame is guessed at.
_FRONT = 1 << 16
_OF_FRAMES = Refusal.TOO_MANY_SEGMENTS, Refusal.MESSAGE_TOO_LONG, Refusal.TRUNCATED
_OF_NO_POINTER = Refusal.NO_ROOM, Refusal.ALLOCATION_FAILED, Refusal.MESSAGE_TOO_LARGE
# The numbers of `enum capnp_canonical_reading`; None if only a part of the message is read.
_VALUE, _CANONICAL, _SIZE = 0, 1, 2
_Reading = Optional[int]
_Pointer = Optional[Tuple[int, int]]
_Call = Callable[..., int]
_Named = TypeVar('_Named', bound=Callable[..., Any])
_REASONS = {int(it): it for it in Reason}
_NO_LIMIT = 2**64 - 1


class _Given:
    """A message as the library takes it: the first two arguments of a call, its size in bytes, and the address and the size
    of the bytes that were passed, which may have been copied. Keeps the buffers alive."""

    __slots__ = 'first', 'second', 'size', 'kept', 'passed'

    def __init__(self, first: Any, second: int, size: int, kept: Sequence[Lent], passed: Tuple[int, int] = (0, 0)) -> None:
        self.first, self.second, self.size, self.kept, self.passed = first, second, size, kept, passed

    def __enter__(self) -> _Given:
        return self

    def __exit__(self, *error: object) -> None:
        for lent in self.kept:
            lent.release()


def _of_lent(lent: Lent) -> _Given:
    return _Given(lent.address, lent.size, lent.size, (lent,), (lent.address, lent.size))


def _frame(frame: ReadableBuffer, limits: Limits) -> _Given:
    """The frame at the front of some bytes; a copy of it, if something could change them meanwhile."""
    if type(frame) is bytes:
        size = len(frame)
        return _Given(frame, size, size, ())
    must_be_no_words(frame)
    words = _limits(limits)[1]
    lent = Lent(frame)
    if lent.is_constant:
        return _of_lent(lent)
    with lent:
        size = lent.size if lent.size <= _SMALL else measured(lent, 0, words)
        return _Given(lent.copy(size), size, size, (), (lent.address, lent.size))


def _message(message: Message, limits: Limits) -> _Given:
    """The frame at the front of some bytes, or the frame of a struct of pycapnp."""
    return _frame(message if type(message) is bytes else frame_of(message), limits)


def _packed(packed: ReadableBuffer) -> _Given:
    """Packed bytes; a copy of them, if something could change them meanwhile."""
    if type(packed) is bytes:
        return _Given(packed, len(packed), len(packed), ())
    must_be_no_words(packed)
    lent = Lent(packed)
    passed = lent.address, lent.size
    given = _of_lent(lent.constant())
    given.passed = passed
    return given


def _segments(segments: Iterable[ReadableBuffer]) -> _Given:
    """The segments of a message; copies of those that something could change meanwhile."""
    kept: List[Lent] = []
    try:
        for segment in segments:
            kept.append(Lent(segment).constant())
    except BaseException:
        for lent in kept:
            lent.release()
        raise
    raw = (RawSegment * len(kept))(*[RawSegment(it.address, it.size) for it in kept])
    return _Given(raw, len(kept), sum(it.size for it in kept), kept)


def _announced(front: bytes, words: int) -> Tuple[int, int]:
    """What the library answers about the first bytes of a frame, and how many bytes they say to have."""
    wanted = ctypes.c_size_t()
    answer: int = library.capnp_canonical_frame_size_from_prefix(front, len(front), words, wanted)
    return answer, wanted.value


def _error_of_front(answer: int, front: bytes, size: int, wanted: int = 0, pointer: _Pointer = None) -> Error:
    """The error of `size` bytes that begin with these; if they aren't a frame, with what they look like."""
    if answer in _OF_FRAMES:
        known, whole = _announced(front, _NO_LIMIT)
        if known != DONE or whole > size:
            return Error(answer, looks_like=looks_like(front, size, words_is_canonical))
    return Error(answer, wanted=wanted, pointer=pointer)


def _refused(answer: int, first: Any, size: int, wanted: int = 0, pointer: _Pointer = None) -> Error:
    """The error of the bytes at an address."""
    front = ctypes.string_at(first, min(size, _FRONT)) if answer in _OF_FRAMES else b''
    return _error_of_front(answer, front, size, wanted, pointer)


def _measured(first: Any, size: int, words: int) -> int:
    """The size in bytes of the frame at the front of `size` bytes at an address."""
    taken = ctypes.c_size_t()
    answer = raw_frame_size(first, size, words, taken)
    if answer != DONE:
        raise _refused(answer, first, size)
    return taken.value


def measured(lent: Lent, at: int, words: int) -> int:
    """The size in bytes of the frame at byte `at` of some bytes. Copies its table first, if something could change it."""
    left = lent.size - at
    if lent.is_constant:
        return _measured(lent.address + at, left, words)
    if left <= TABLE:
        return _measured(lent.copy(left, at), left, words)
    answer, size = _announced(lent.copy(TABLE, at), words)
    if answer == DONE and size <= left:
        return size
    raise _error_of_front(answer or Refusal.TRUNCATED, lent.copy(min(left, _FRONT), at), left)


def _pointer(answer: int, given: _Given, limits: Limits, reading: _Reading) -> _Pointer:
    """The pointer at which a message is refused that was read in this way."""
    if reading is None or answer in _OF_NO_POINTER:
        return None
    is_segments = isinstance(given.first, ctypes.Array)
    call = library.capnp_canonical_segments_locate if is_segments else library.capnp_canonical_locate
    found = RawPointer()
    if call(given.first, given.second, *_limits(limits), reading, found) != DONE or found.refusal == DONE:
        return None
    return found.segment, found.word


def _error_of(answer: int, given: _Given, limits: Limits, reading: _Reading, wanted: int = 0) -> Error:
    pointer = _pointer(answer, given, limits, reading)
    if isinstance(given.first, ctypes.Array):
        return Error(answer, wanted=wanted, pointer=pointer)
    return _refused(answer, given.first, given.size, wanted, pointer)


def _limits(limits: Limits) -> Tuple[int, int]:
    """The two numbers that a call takes."""
    try:
        nesting = limits.nesting
        return nesting if nesting < MAX_NESTING else MAX_NESTING, limits.words
    except AttributeError:
        raise TypeError(f'limits must be of the class Limits, not {type(limits).__name__}') from None


def _room(size: int) -> Union[Small, Room]:
    """Memory of this size, which isn't 0."""
    if size <= _SMALL:
        return Small(size)
    try:
        return Room(size)
    except (MemoryError, OverflowError):
        raise Error(Refusal.ALLOCATION_FAILED) from None


def within(limits: Limits, nesting: Bound = None, words: Bound = None) -> Limits:
    """These limits, with the keywords of a call in place of theirs."""
    if nesting is None and words is None:
        return limits
    _limits(limits)
    return Limits(limits.nesting if nesting is None else nesting, limits.words if words is None else words)


def _written(call: _Call, given: _Given, limits: Limits, size: int, reading: _Reading) -> bytes:
    """What a call writes. It gets this much room, and then as much as it needs if that is too small."""
    nesting, words = _limits(limits)
    room, written = _room(size), ctypes.c_size_t()
    answer = call(given.first, given.second, nesting, words, room.address, room.size, written)
    if answer == Refusal.NO_ROOM:
        room = _room(written.value)
        answer = call(given.first, given.second, nesting, words, room.address, room.size, written)
    if answer != DONE:
        raise _error_of(answer, given, limits, reading)
    return room.take(written.value)


def _written_of_frame(
    call: _Call, frame: Message, limits: Limits, reading: _Reading = _CANONICAL
) -> bytes:
    with _message(frame, limits) as given:
        size = given.size
        if size > _SMALL:
            size = _measured(given.first, size, _limits(limits)[1])
        return _written(call, given, limits, size + 8, reading)


def _written_of_segments(
    call: _Call, segments: Iterable[ReadableBuffer], limits: Limits, reading: _Reading = _CANONICAL
) -> bytes:
    with _segments(segments) as given:
        return _written(call, given, limits, given.size + 8, reading)


def _must_be_apart(to: Lent, given: _Given) -> None:
    """Refuse buffers that overlap. An object of type `bytes` shares no memory with a writable buffer."""
    address, size = given.passed
    if max(to.address, address) < min(to.address + to.size, address + size):
        raise ValueError('the buffer to write to overlaps the bytes to read')


def _written_into(call: _Call, to: WriteableBuffer, frame: Message, limits: Limits) -> int:
    nesting, words = _limits(limits)
    written = ctypes.c_size_t()
    with _message(frame, limits) as given, Lent(to, writable=True) as room:
        _must_be_apart(room, given)
        answer = call(given.first, given.second, nesting, words, room.address, room.size, written)
        if answer != DONE:
            raise _error_of(answer, given, limits, _CANONICAL, written.value)
    return written.value


def _digest(call: _Call, given: _Given, limits: Limits, reading: _Reading = _CANONICAL) -> bytes:
    to = ctypes.create_string_buffer(_DIGEST)
    with given:
        nesting, words = _limits(limits)
        answer = call(given.first, given.second, nesting, words, to)
        if answer != DONE:
            raise _error_of(answer, given, limits, reading)
    return to.raw


def _digesting(message: str, prefix: ReadableBuffer, path: Optional[Iterable[int]] = None) -> _Call:
    """The call for the digest of a prefix and a message, or a part of one. `message` is a part of the call's name."""
    before = bytes(memoryview(prefix))
    name = f'capnp_canonical_{message}digest' + '_with' * bool(before) + '_at' * (path is not None)
    call: _Call = getattr(library, name)
    if before:
        call = functools.partial(call, before, len(before))
    return call if path is None else _at(call, path)


def _same(message: str, one: _Given, other: _Given, limits: Limits) -> bool:
    """Whether two messages have the same canonical words. `message` is a part of the call's name."""
    same = ctypes.c_bool()
    with one, other:
        nesting, words = _limits(limits)
        call = getattr(library, f'capnp_canonical_{message}equal')
        answer = call(one.first, one.second, other.first, other.second, nesting, words, same)
        if answer == DONE:
            return same.value
        # the answer doesn't say which message is refused
        for given in one, other:
            to = ctypes.create_string_buffer(_DIGEST)
            its = getattr(library, f'capnp_canonical_{message}digest')(given.first, given.second, nesting, words, to)
            if its != DONE:
                raise _error_of(its, given, limits, _CANONICAL)
        raise Error(answer)


def _checked(call: _Call, given: _Given, limits: Limits) -> Optional[Fault]:
    is_canonical, fault = ctypes.c_bool(), RawFault()
    with given:
        nesting, words = _limits(limits)
        answer = call(given.first, given.second, nesting, words, is_canonical, fault)
        if answer != DONE:
            raise _error_of(answer, given, limits, _VALUE)
    if is_canonical.value:
        return None
    return Fault(_REASONS.get(fault.reason, fault.reason), fault.segment, fault.word)


def _is_canonical(call: _Call, given: _Given, limits: Limits) -> bool:
    is_canonical = ctypes.c_bool()
    with given:
        nesting, words = _limits(limits)
        return call(given.first, given.second, nesting, words, is_canonical, RawFault()) == DONE and is_canonical.value


def _sized(call: _Call, given: _Given, limits: Limits, reading: _Reading = _SIZE) -> Size:
    count, capabilities = ctypes.c_uint64(), ctypes.c_uint32()
    with given:
        nesting, words = _limits(limits)
        answer = call(given.first, given.second, nesting, words, count, capabilities)
        if answer != DONE:
            raise _error_of(answer, given, limits, reading)
    return Size(count.value, capabilities.value)


def _validated(call: _Call, given: _Given, limits: Limits) -> Extent:
    extent = RawExtent()
    with given:
        nesting, words = _limits(limits)
        answer = call(given.first, given.second, nesting, words, extent)
        if answer != DONE:
            raise _error_of(answer, given, limits, _VALUE)
    return Extent(extent.depth, extent.words, extent.capabilities, extent.cost)


def _object_of(raw: RawObject) -> Object:
    parent = None if raw.parent == 2**64 - 1 else raw.parent
    return Object(
        Kind(raw.kind), parent, (raw.pointer_segment, raw.pointer_word), raw.segment, raw.word, raw.count, raw.capability,
        raw.data_words, raw.pointers
    )


def _walked(call: _Call, given: _Given, most: int, limits: Limits) -> Walk:
    count = ctypes.c_size_t()
    with given:
        nesting, words = _limits(limits)
        # no message has more objects than it may have words
        objects = (RawObject * min(most, words))()
        answer = call(given.first, given.second, nesting, words, objects, len(objects), count)
        refused = None if answer in (DONE, Refusal.NO_ROOM) else _error_of(answer, given, limits, _VALUE)
    if refused and refused.pointer is None:
        raise refused
    return Walk([_object_of(it) for it in objects[:count.value]], count.value, refused)


def _at(call: _Call, path: Iterable[int]) -> _Call:
    """The call for a part of the message, with a path whose indexes fit 32 bits."""
    indexes = array('I', list(path))
    raw = (ctypes.c_uint32 * len(indexes))(*indexes)
    return lambda first, second, *rest: call(first, second, raw, len(indexes), *rest)


def copy(frame: Message, limits: Limits = LIMITS, *, nesting: Bound = None, words: Bound = None) -> bytes:
    """Make the message canonical, as a frame of one segment."""
    limits = within(limits, nesting, words)
    return _written_of_frame(library.capnp_canonical_copy, frame, limits)


def copy_flat(frame: Message, limits: Limits = LIMITS, *, nesting: Bound = None, words: Bound = None) -> Words:
    """Make the message canonical, as raw words without the table of a frame: the bytes to hash or sign. Read stored
    words back with `words_check` and `words_copy`. The calls for frames refuse the result, which is of type `Words`."""
    limits = within(limits, nesting, words)
    return words_of(_written_of_frame(library.capnp_canonical_copy_flat, frame, limits))


def copy_into(
    to: WriteableBuffer, frame: Message, limits: Limits = LIMITS, *, nesting: Bound = None, words: Bound = None
) -> int:
    """Like `copy`, but write to the front of a buffer, and return the number of bytes written. Raises `ValueError` if
    the buffer overlaps the frame."""
    limits = within(limits, nesting, words)
    return _written_into(library.capnp_canonical_copy, to, frame, limits)


def copy_flat_into(
    to: WriteableBuffer, frame: Message, limits: Limits = LIMITS, *, nesting: Bound = None, words: Bound = None
) -> int:
    """Like `copy_flat`, but write to the front of a buffer, like `copy_into`."""
    limits = within(limits, nesting, words)
    return _written_into(library.capnp_canonical_copy_flat, to, frame, limits)


def digest(
    frame: Message, limits: Limits = LIMITS, *, prefix: ReadableBuffer = b'', nesting: Bound = None, words: Bound = None
) -> bytes:
    """The SHA-256 of the canonical words of the message, which are the bytes that `copy_flat` gives. It names the value:
    messages with equal values have the same.

    The bytes of `prefix` are hashed first. Canonical words don't tell their type: with the 8 bytes of a type id
    as the prefix, the digest and a signature of it cover the type."""
    limits = within(limits, nesting, words)
    return _digest(_digesting('', prefix), _message(frame, limits), limits)


def hexdigest(
    frame: Message, limits: Limits = LIMITS, *, prefix: ReadableBuffer = b'', nesting: Bound = None, words: Bound = None
) -> str:
    """Like `digest`, in 64 hexadecimal digits of lower case."""
    return digest(frame, within(limits, nesting, words), prefix=prefix).hex()


def equal(frame: Message, other: Message, limits: Limits = LIMITS, *, nesting: Bound = None, words: Bound = None) -> bool:
    """Test whether two messages have the same value: whether their canonical words are equal. Each is read within the limits.
    To compare one message with many, compare digests."""
    limits = within(limits, nesting, words)
    return _same('', _message(frame, limits), _message(other, limits), limits)


def copy_flat_at(
    frame: Message, path: Iterable[int], limits: Limits = LIMITS, *, nesting: Bound = None, words: Bound = None
) -> Words:
    """Make a part of a message canonical and return its raw words. The part is the value at the end of a path. The path
    has the indexes of pointers, from the root pointer on; `(0,)` is the first pointer of the root struct. In a list, an
    index is that of an element. Raises `Error` with `Refusal.NO_SUCH_PLACE` if the path leads nowhere."""
    limits = within(limits, nesting, words)
    return words_of(_written_of_frame(_at(library.capnp_canonical_copy_flat_at, path), frame, limits, None))


def digest_at(
    frame: Message, path: Iterable[int], limits: Limits = LIMITS, *, prefix: ReadableBuffer = b'', nesting: Bound = None, words: Bound = None
) -> bytes:
    """The SHA-256 of the bytes that `copy_flat_at` gives, after those of `prefix`."""
    limits = within(limits, nesting, words)
    return _digest(_digesting('', prefix, path), _message(frame, limits), limits, None)


def hexdigest_at(
    frame: Message, path: Iterable[int], limits: Limits = LIMITS, *, prefix: ReadableBuffer = b'', nesting: Bound = None, words: Bound = None
) -> str:
    """Like `digest_at`, in 64 hexadecimal digits."""
    return digest_at(frame, path, within(limits, nesting, words), prefix=prefix).hex()


def check(
    frame: ReadableBuffer, limits: Limits = LIMITS, *, nesting: Bound = None, words: Bound = None
) -> Optional[Fault]:
    """Say why and where the message isn't canonical; None if it is: one segment that holds the canonical words of a
    value and nothing else."""
    limits = within(limits, nesting, words)
    return _checked(library.capnp_canonical_check, _frame(frame, limits), limits)


def is_canonical(frame: ReadableBuffer, limits: Limits = LIMITS, *, nesting: Bound = None, words: Bound = None) -> bool:
    """Test whether the message is canonical. Also False if it can't be read, because a limit is exceeded or the bytes
    aren't a frame."""
    limits = within(limits, nesting, words)
    try:
        given = _frame(frame, limits)
    except Error:
        return False
    return _is_canonical(library.capnp_canonical_check, given, limits)


def size(frame: Message, limits: Limits = LIMITS, *, nesting: Bound = None, words: Bound = None) -> Size:
    """Count the words and capabilities of the message."""
    limits = within(limits, nesting, words)
    return _sized(library.capnp_canonical_size, _message(frame, limits), limits)


def validate(frame: Message, limits: Limits = LIMITS, *, nesting: Bound = None, words: Bound = None) -> Extent:
    """Raise `Error` unless the message is sound: unless its root means a value within both limits. The value may have
    capabilities."""
    limits = within(limits, nesting, words)
    return _validated(library.capnp_canonical_validate, _message(frame, limits), limits)


def walk(
    frame: ReadableBuffer, most: int = MOST_OBJECTS, limits: Limits = LIMITS, *, nesting: Bound = None, words: Bound = None
) -> Walk:
    """List the structs, lists and capabilities of the message, at most `most` of them. A broken message is listed up to its
    first broken pointer. Raises `Error` only if the bytes aren't a message."""
    limits = within(limits, nesting, words)
    return _walked(library.capnp_canonical_walk, _frame(frame, limits), most, limits)


def size_at(
    frame: Message, path: Iterable[int], limits: Limits = LIMITS, *, nesting: Bound = None, words: Bound = None
) -> Size:
    """Like `size`, for the part of the message that `copy_flat_at` copies."""
    limits = within(limits, nesting, words)
    return _sized(_at(library.capnp_canonical_size_at, path), _message(frame, limits), limits, None)


def segments_copy(
    segments: Iterable[ReadableBuffer], limits: Limits = LIMITS, *, nesting: Bound = None, words: Bound = None
) -> bytes:
    """Like `copy`, for a message of these segments. The size of each is a multiple of 8 bytes."""
    limits = within(limits, nesting, words)
    return _written_of_segments(library.capnp_canonical_segments_copy, segments, limits)


def segments_copy_flat(
    segments: Iterable[ReadableBuffer], limits: Limits = LIMITS, *, nesting: Bound = None, words: Bound = None
) -> Words:
    """Like `copy_flat`, for a message of these segments."""
    limits = within(limits, nesting, words)
    return words_of(_written_of_segments(library.capnp_canonical_segments_copy_flat, segments, limits))


def segments_digest(
    segments: Iterable[ReadableBuffer], limits: Limits = LIMITS, *, prefix: ReadableBuffer = b'', nesting: Bound = None, words: Bound = None
) -> bytes:
    """Like `digest`, for a message of these segments."""
    limits = within(limits, nesting, words)
    return _digest(_digesting('segments_', prefix), _segments(segments), limits)


def segments_hexdigest(
    segments: Iterable[ReadableBuffer], limits: Limits = LIMITS, *, prefix: ReadableBuffer = b'', nesting: Bound = None, words: Bound = None
) -> str:
    """Like `hexdigest`, for a message of these segments."""
    return segments_digest(segments, within(limits, nesting, words), prefix=prefix).hex()


def segments_equal(
    segments: Iterable[ReadableBuffer], other: Iterable[ReadableBuffer], limits: Limits = LIMITS, *, nesting: Bound = None, words: Bound = None
) -> bool:
    """Like `equal`, for two messages of segments."""
    limits = within(limits, nesting, words)
    return _same('segments_', _segments(segments), _segments(other), limits)


def segments_copy_flat_at(
    segments: Iterable[ReadableBuffer], path: Iterable[int], limits: Limits = LIMITS, *, nesting: Bound = None, words: Bound = None
) -> Words:
    """Like `copy_flat_at`, for a message of these segments."""
    limits = within(limits, nesting, words)
    return words_of(_written_of_segments(_at(library.capnp_canonical_segments_copy_flat_at, path), segments, limits, None))


def segments_digest_at(
    segments: Iterable[ReadableBuffer], path: Iterable[int], limits: Limits = LIMITS, *, prefix: ReadableBuffer = b'', nesting: Bound = None, words: Bound = None
) -> bytes:
    """Like `digest_at`, for a message of these segments."""
    limits = within(limits, nesting, words)
    return _digest(_digesting('segments_', prefix, path), _segments(segments), limits, None)


def segments_hexdigest_at(
    segments: Iterable[ReadableBuffer], path: Iterable[int], limits: Limits = LIMITS, *, prefix: ReadableBuffer = b'', nesting: Bound = None, words: Bound = None
) -> str:
    """Like `hexdigest_at`, for a message of these segments."""
    return segments_digest_at(segments, path, within(limits, nesting, words), prefix=prefix).hex()


def segments_size_at(
    segments: Iterable[ReadableBuffer], path: Iterable[int], limits: Limits = LIMITS, *, nesting: Bound = None, words: Bound = None
) -> Size:
    """Like `size_at`, for a message of these segments."""
    limits = within(limits, nesting, words)
    return _sized(_at(library.capnp_canonical_segments_size_at, path), _segments(segments), limits, None)


def segments_check(
    segments: Iterable[ReadableBuffer], limits: Limits = LIMITS, *, nesting: Bound = None, words: Bound = None
) -> Optional[Fault]:
    """Like `check`, for a message of these segments."""
    limits = within(limits, nesting, words)
    return _checked(library.capnp_canonical_segments_check, _segments(segments), limits)


def segments_is_canonical(
    segments: Iterable[ReadableBuffer], limits: Limits = LIMITS, *, nesting: Bound = None, words: Bound = None
) -> bool:
    """Like `is_canonical`, for a message of these segments."""
    limits = within(limits, nesting, words)
    return _is_canonical(library.capnp_canonical_segments_check, _segments(segments), limits)


def segments_size(
    segments: Iterable[ReadableBuffer], limits: Limits = LIMITS, *, nesting: Bound = None, words: Bound = None
) -> Size:
    """Like `size`, for a message of these segments."""
    limits = within(limits, nesting, words)
    return _sized(library.capnp_canonical_segments_size, _segments(segments), limits)


def segments_validate(
    segments: Iterable[ReadableBuffer], limits: Limits = LIMITS, *, nesting: Bound = None, words: Bound = None
) -> Extent:
    """Like `validate`, for a message of these segments."""
    limits = within(limits, nesting, words)
    return _validated(library.capnp_canonical_segments_validate, _segments(segments), limits)


def segments_walk(
    segments: Iterable[ReadableBuffer], most: int = MOST_OBJECTS, limits: Limits = LIMITS, *, nesting: Bound = None, words: Bound = None
) -> Walk:
    """Like `walk`, for a message of these segments."""
    limits = within(limits, nesting, words)
    return _walked(library.capnp_canonical_segments_walk, _segments(segments), most, limits)


def _also_by_name(call: _Named) -> _Named:
    """A call whose message was named `words` in version 1.1.0, and still may be."""
    @functools.wraps(call)
    def renamed(*given: Any, **named: Any) -> Any:
        if not given and 'message' not in named and 'words' in named:
            warnings.warn('the message is named `message` now; `words` is a limit', DeprecationWarning, stacklevel=2)
            given = named.pop('words'),
        return call(*given, **named)
    return renamed  # type: ignore[return-value]


@_also_by_name
def words_copy(
    message: ReadableBuffer, limits: Limits = LIMITS, *, nesting: Bound = None, words: Bound = None
) -> Words:
    """Like `copy_flat`, for a message passed as raw words: all of them are its one segment."""
    return segments_copy_flat([message], within(limits, nesting, words))


@_also_by_name
def words_digest(
    message: ReadableBuffer, limits: Limits = LIMITS, *, prefix: ReadableBuffer = b'', nesting: Bound = None, words: Bound = None
) -> bytes:
    """Like `digest`, for a message passed as raw words."""
    return segments_digest([message], within(limits, nesting, words), prefix=prefix)


def words_hexdigest(
    message: ReadableBuffer, limits: Limits = LIMITS, *, prefix: ReadableBuffer = b'', nesting: Bound = None, words: Bound = None
) -> str:
    """Like `hexdigest`, for a message passed as raw words."""
    return words_digest(message, within(limits, nesting, words), prefix=prefix).hex()


def words_equal(
    message: ReadableBuffer, other: ReadableBuffer, limits: Limits = LIMITS, *, nesting: Bound = None, words: Bound = None
) -> bool:
    """Like `equal`, for two messages passed as raw words."""
    limits = within(limits, nesting, words)
    return segments_equal([message], [other], limits)


@_also_by_name
def words_copy_at(
    message: ReadableBuffer, path: Iterable[int], limits: Limits = LIMITS, *, nesting: Bound = None, words: Bound = None
) -> Words:
    """Like `copy_flat_at`, for a message passed as raw words."""
    return segments_copy_flat_at([message], path, within(limits, nesting, words))


@_also_by_name
def words_digest_at(
    message: ReadableBuffer, path: Iterable[int], limits: Limits = LIMITS, *, prefix: ReadableBuffer = b'', nesting: Bound = None, words: Bound = None
) -> bytes:
    """Like `digest_at`, for a message passed as raw words."""
    return segments_digest_at([message], path, within(limits, nesting, words), prefix=prefix)


def words_hexdigest_at(
    message: ReadableBuffer, path: Iterable[int], limits: Limits = LIMITS, *, prefix: ReadableBuffer = b'', nesting: Bound = None, words: Bound = None
) -> str:
    """Like `hexdigest_at`, for a message passed as raw words."""
    return words_digest_at(message, path, within(limits, nesting, words), prefix=prefix).hex()


@_also_by_name
def words_size_at(
    message: ReadableBuffer, path: Iterable[int], limits: Limits = LIMITS, *, nesting: Bound = None, words: Bound = None
) -> Size:
    """Like `size_at`, for a message passed as raw words."""
    return segments_size_at([message], path, within(limits, nesting, words))


@_also_by_name
def words_check(
    message: ReadableBuffer, limits: Limits = LIMITS, *, nesting: Bound = None, words: Bound = None
) -> Optional[Fault]:
    """Like `check`, for a message passed as raw words."""
    return segments_check([message], within(limits, nesting, words))


@_also_by_name
def words_is_canonical(
    message: ReadableBuffer, limits: Limits = LIMITS, *, nesting: Bound = None, words: Bound = None
) -> bool:
    """Like `is_canonical`, for a message passed as raw words."""
    return segments_is_canonical([message], within(limits, nesting, words))


@_also_by_name
def words_size(message: ReadableBuffer, limits: Limits = LIMITS, *, nesting: Bound = None, words: Bound = None) -> Size:
    """Like `size`, for a message passed as raw words."""
    return segments_size([message], within(limits, nesting, words))


@_also_by_name
def words_validate(
    message: ReadableBuffer, limits: Limits = LIMITS, *, nesting: Bound = None, words: Bound = None
) -> Extent:
    """Like `validate`, for a message passed as raw words."""
    return segments_validate([message], within(limits, nesting, words))


@_also_by_name
def words_walk(
    message: ReadableBuffer, most: int = MOST_OBJECTS, limits: Limits = LIMITS, *, nesting: Bound = None, words: Bound = None
) -> Walk:
    """Like `walk`, for a message passed as raw words."""
    return segments_walk([message], most, within(limits, nesting, words))


def bytes_wanted(held: bytes) -> int:
    """The size in bytes of a frame that isn't whole, or of its table, as far as its first bytes tell."""
    return _announced(held, _NO_LIMIT)[1]


def frame_size(stream: ReadableBuffer, words: int = LIMITS.words) -> int:
    """The size in bytes of the frame at the front, which may have at most `words` words. Its message isn't read.

    If the bytes end within the frame, `Error.wanted` is the size of the frame, or of its table if that isn't whole
    either. `frames` reads a file until each frame is whole."""
    limit = Limits(words=words).words
    must_be_no_words(stream)
    with Lent(stream) as lent:
        try:
            return measured(lent, 0, limit)
        except Error as error:
            if error.number != Refusal.TRUNCATED:
                raise
            front = lent.copy(min(lent.size, TABLE))
            raise Error(error.number, looks_like=error.looks_like, wanted=bytes_wanted(front)) from None


def _unpacked(given: _Given, to: Any, room: int) -> Tuple[bool, int]:
    """Unpack to an address with this much room. Return whether it was enough, and how many bytes the packed ones stand
    for."""
    written = ctypes.c_size_t()
    answer = library.capnp_canonical_unpack(given.first, given.second, to, room, written)
    if answer not in (DONE, Refusal.NO_ROOM):
        raise Error(answer)
    return answer == DONE, written.value


def unpack(packed: ReadableBuffer, words: int = LIMITS.words) -> bytes:
    """Unpack what `capnp encode --packed` and pycapnp's `to_bytes_packed` write: the frames of one or more messages,
    which the other calls take, and `frames` one by one.

    Two packed bytes stand for up to 2,048. If there are more than `words` words, this raises `Error` with the number
    `Refusal.MESSAGE_TOO_LONG`, before it takes memory for them. It also raises `Error` if the packed bytes are cut
    short."""
    words = Limits(words=words).words
    with _packed(packed) as given:
        _, size = _unpacked(given, None, 0)
        if size // 8 > words:
            raise Error(Refusal.MESSAGE_TOO_LONG)
        if not size:
            return b''
        room = _room(size)
        _unpacked(given, room.address, size)
    return room.take(size)


def pack(frames: ReadableBuffer) -> bytes:
    """Pack whole words, such as the frames of one or more messages: what `capnp encode --packed` and pycapnp's
    `to_bytes_packed` write. Raises `Error` if the number of bytes isn't a multiple of 8."""
    with _packed(frames) as given:
        size: int = given.second
        if not size:
            return b''
        # a word is packed to ten bytes at most
        room, written = _room(size + size // 4), ctypes.c_size_t()
        answer = library.capnp_canonical_pack(given.first, size, room.address, room.size, written)
        if answer != DONE:
            raise Error(answer)
    return room.take(written.value)


def unpack_into(to: WriteableBuffer, packed: ReadableBuffer) -> int:
    """Unpack to the front of a buffer, and return the number of bytes written. If the room is too small nothing is
    written, and `Error` says how many bytes are needed. Raises `ValueError` if the buffer overlaps the packed
    bytes."""
    with _packed(packed) as given, Lent(to, writable=True) as lent:
        _must_be_apart(lent, given)
        has_room, size = _unpacked(given, lent.address, lent.size)
    if not has_room:
        raise Error(Refusal.NO_ROOM, wanted=size)
    return size
