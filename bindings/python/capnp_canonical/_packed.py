"""The frames of a packed stream."""
from __future__ import annotations

import ctypes
from typing import TYPE_CHECKING, Any, Iterator, Union

from capnp_canonical._answers import Error, Limits, Refusal
from capnp_canonical._calls import DONE, LIMITS, TABLE
from capnp_canonical._frames import PIECE, Pieces, Readable, has_buffer, view_of
from capnp_canonical._library import Lent, RawUnpacking, library
from capnp_canonical._words import must_be_no_words

if TYPE_CHECKING:
    from _typeshed import ReadableBuffer

# The size of the smallest segment table.
_SMALLEST = 8
# The most room that is made at a time: a few packed bytes may announce a frame that never comes.
_ROOM = 1 << 18


def packed_frames(stream: Union[ReadableBuffer, Readable], words: int = LIMITS.words) -> Iterator[memoryview]:
    """Iterate over the frames of a packed stream. Unpacks them one by one; each has at most `words` words, and is a view
    of bytes. Raises `Error` if the remaining bytes don't stand for a frame; it says which message that is, and at which
    byte of the unpacked stream.

    The stream is bytes, or a file that is open for reading bytes. A file is read piece by piece, up to 64 KiB ahead, and
    a frame is yielded as soon as it is there."""
    words = Limits(words=words).words
    must_be_no_words(stream)
    if hasattr(stream, 'read') and not has_buffer(stream):
        return _packed_frames(Pieces(stream).all(), words)
    return _packed_frames(_pieces_of(stream), words)


def _pieces_of(stream: Any) -> Iterator[Any]:
    """The bytes of an object; piece by piece, if each of them has to be copied."""
    if type(stream) is bytes:
        yield stream
        return
    whole = view_of(stream)
    for at in range(0, len(whole), PIECE):
        yield whole[at:at + PIECE]


class _Unpacked:
    """The bytes of the next frame that are there."""

    def __init__(self, words: int) -> None:
        self._state, self._words = RawUnpacking(), words
        self.frame, self._held, self._wanted = bytearray(), 0, _SMALLEST

    def has_begun(self) -> bool:
        """Whether a frame, or a packed word or run of words, has begun."""
        return bool(self._held or self._state.zeros or self._state.place)

    def go_on(self, address: int, size: int) -> int:
        """Unpack packed bytes until the frame is whole, or none are left. Return how many of them that took."""
        at, taken = 0, ctypes.c_size_t()
        while self._held < self._wanted:
            room = min(self._wanted, self._held + max(self._held, _ROOM))
            self.frame.extend(bytes(room - len(self.frame)))
            with Lent(self.frame, writable=True) as to:
                self._held += library.capnp_canonical_unpack_piece(
                    self._state, address + at, size - at, to.address + self._held, room - self._held, taken
                )
            at += taken.value
            if self._held < room:
                break
            if self._held == self._wanted:
                self._measure()
        return at

    def _measure(self) -> None:
        front, size = bytes(self.frame[:TABLE]), ctypes.c_size_t()
        answer = library.capnp_canonical_frame_size_from_prefix(front, len(front), self._words, size)
        if answer != DONE:
            raise Error(answer)
        self._wanted = size.value

    def is_whole(self) -> bool:
        return self._held == self._wanted

    def take(self) -> bytearray:
        """The frame, which is whole. The next one begins."""
        frame = self.frame
        self.frame, self._held, self._wanted = bytearray(), 0, _SMALLEST
        return frame


class Packed:
    """The frames of a packed stream whose bytes come piece by piece."""

    def __init__(self, words: int) -> None:
        self._unpacked = _Unpacked(words)
        self._byte, self._number = 0, 1

    def frames(self, piece: ReadableBuffer) -> Iterator[memoryview]:
        """The frames that are whole with these packed bytes."""
        with Lent(piece).constant() as lent:
            start = 0
            while True:
                try:
                    start += self._unpacked.go_on(lent.address + start, lent.size - start)
                except Error as error:
                    raise error.at(self._number, self._byte) from None
                if not self._unpacked.is_whole():
                    return
                frame = bytes(self._unpacked.take())
                yield memoryview(frame)
                self._byte += len(frame)
                self._number += 1

    def end(self) -> None:
        """Refuse what has begun, because the stream has ended."""
        if self._unpacked.has_begun():
            raise Error(Refusal.TRUNCATED).at(self._number, self._byte)


def _packed_frames(pieces: Iterator[Any], words: int) -> Iterator[memoryview]:
    packed = Packed(words)
    for piece in pieces:
        yield from packed.frames(piece)
    packed.end()
