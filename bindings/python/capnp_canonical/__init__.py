"""Canonical form of Cap'n Proto messages, over the library libcapnp_canonical.

    import capnp_canonical
    name = capnp_canonical.hexdigest(frame)    # the SHA-256 of the canonical words

You pass a message as a frame, which is what `capnp encode`, capnp::writeMessage and pycapnp's `to_bytes` write, or as
its segments. Bytes after the frame are ignored. Unpack packed bytes first, with `unpack`. The calls that copy, hash, size
and validate a message also take a struct of pycapnp, a reader or a builder: `hexdigest(person)`.

Raw words aren't a frame. Read back what `copy_flat` returns with the calls whose names begin with `words_`. It is of type
`Words`, and the calls for frames raise `TypeError` for that type. But if you pass stored words as other bytes, such a
call may SUCCEED, and then reads ANOTHER value, because the pointer to a root without pointers is also the table of a frame.

Each call takes the limits as `Limits`, or by name: `digest(frame, words=100_000)`.

Bytes are any object with a buffer: bytes, bytearray, memoryview, mmap, a NumPy array. An object of type `bytes` and
views of it are read in place; others are copied first, because something could change them during the call. No thread
may use the buffer that a call writes to until the call returns. A call that is refused raises `Error`, of a subclass
for the kind of refusal: `OverLimitError`, `MalformedError`, `IncompleteError`, .. If memory runs out it is
`OutOfMemoryError`, which is a `MemoryError`, too. No call keeps anything, so several threads may call at once, and
other Python threads run during a call. A level of nesting takes up to 768 bytes of stack, and 11,056 if the compiler
doesn't optimise the C. A nesting limit above `MAX_NESTING` counts as that.

    python3 -m capnp_canonical --help

names each message of a file by a hash, compares two files, and finds equal messages.

The package needs CPython. It loads the library that the environment variable CAPNP_CANONICAL_LIBRARY names; or else
libcapnp_canonical.so from the package's folder, from the folder around it, or from the folder `lib` next to that; or
else the one that the system's loader finds. On macOS it looks for libcapnp_canonical.dylib, on Windows for
capnp_canonical.dll.
"""
from capnp_canonical._answers import (
    MAX_NESTING, CapabilityError, Error, Extent, Fault, IncompleteError, Kind, Limits, MalformedError, NoRoomError,
    NoSuchPlaceError, Object, OutOfMemoryError, OverLimitError, Reason, Refusal, Size, TooLargeError, Walk,
)
from capnp_canonical._asyncio import async_frames, async_packed_frames
from capnp_canonical._calls import (
    check, copy, copy_flat, copy_flat_at, copy_flat_into, copy_into, digest, digest_at, equal, frame_size,
    hexdigest, hexdigest_at, is_canonical, pack, segments_check, segments_copy, segments_copy_flat, segments_copy_flat_at,
    segments_digest, segments_digest_at, segments_equal, segments_hexdigest, segments_hexdigest_at,
    segments_is_canonical, segments_size, segments_size_at, segments_validate, segments_walk, size, size_at, unpack,
    unpack_into, validate, walk, words_check, words_copy, words_copy_at, words_digest, words_digest_at, words_equal,
    words_hexdigest, words_hexdigest_at, words_is_canonical, words_size, words_size_at, words_validate, words_walk,
)
from capnp_canonical._frames import frames
from capnp_canonical._library import version, version_text as _version_text
from capnp_canonical._packed import packed_frames
from capnp_canonical._words import Words

__all__ = [
    'CapabilityError', 'Error', 'Extent', 'Fault', 'IncompleteError', 'Kind', 'Limits', 'MalformedError',
    'MAX_NESTING', 'NoRoomError', 'NoSuchPlaceError', 'Object', 'OutOfMemoryError', 'OverLimitError', 'Reason',
    'Refusal', 'Size', 'TooLargeError', 'Walk', 'Words', 'async_frames', 'async_packed_frames', 'check', 'copy',
    'copy_flat', 'copy_flat_at', 'copy_flat_into', 'copy_into', 'digest', 'digest_at', 'equal', 'frame_size',
    'frames', 'hexdigest', 'hexdigest_at', 'is_canonical', 'pack', 'packed_frames', 'segments_check', 'segments_copy',
    'segments_copy_flat', 'segments_copy_flat_at', 'segments_digest', 'segments_digest_at', 'segments_equal',
    'segments_hexdigest', 'segments_hexdigest_at', 'segments_is_canonical', 'segments_size', 'segments_size_at',
    'segments_validate', 'segments_walk', 'size', 'size_at', 'unpack', 'unpack_into', 'validate', 'version', 'walk',
    'words_check', 'words_copy', 'words_copy_at', 'words_digest', 'words_digest_at', 'words_equal',
    'words_hexdigest', 'words_hexdigest_at', 'words_is_canonical', 'words_size', 'words_size_at', 'words_validate',
    'words_walk',
]

for _shown in (
    CapabilityError, Error, Extent, Fault, IncompleteError, Kind, Limits, MalformedError, NoRoomError,
    NoSuchPlaceError, Object, OutOfMemoryError, OverLimitError, Reason, Refusal, Size, TooLargeError, Walk, Words,
):
    _shown.__module__ = __name__
__version__ = _version_text(version())
