"""The frames of a stream."""
from __future__ import annotations

from typing import TYPE_CHECKING, Any, Iterator, List, Optional, Protocol, Union

from capnp_canonical._answers import Error, Limits, Refusal
from capnp_canonical._calls import LIMITS, bytes_wanted, measured
from capnp_canonical._library import Lent
from capnp_canonical._words import must_be_no_words

if TYPE_CHECKING:
    from _typeshed import ReadableBuffer

PIECE = 1 << 16
# The most bytes requested at a time: the bytes that a table announces may never come.
_MOST = 1 << 22


class Readable(Protocol):
    def read(self, size: int, /) -> Optional[bytes]:
        ...


def frames(stream: Union[ReadableBuffer, Readable], words: int = LIMITS.words) -> Iterator[memoryview]:
    """Iterate over the frames of a stream, each of at most `words` words, as views of bytes. Raises `Error` if the
    remaining bytes don't start with a frame; it says which message that is, and at which byte.

    The stream is bytes, which aren't copied, or a file that is open for reading bytes. A file is read piece by piece,
    and a frame is yielded as soon as it is there.

    A frame of bytes is a view of them: an mmap can't be closed, nor a bytearray change its size, until you release
    each frame (`frame.release()`) or drop it (`del frame`), and the iterator has ended or is dropped too."""
    words = Limits(words=words).words
    must_be_no_words(stream)
    if hasattr(stream, 'read') and not has_buffer(stream):
        return _frames_of_file(stream, words)
    return _frames_of_bytes(stream, words)


def has_buffer(stream: Any) -> bool:
    """Whether it is bytes. An mmap has `read` too."""
    try:
        memoryview(stream).release()
    except TypeError:
        return False
    return True


def view_of(stream: Any) -> memoryview:
    """A view of the bytes of an object, one by one."""
    view = memoryview(stream)
    if not view.nbytes:
        # an empty array of several dimensions can't be cast
        return memoryview(b'')
    return view.cast('B') if view.c_contiguous else memoryview(view.tobytes())


def _frames_of_bytes(stream: Any, words: int) -> Iterator[memoryview]:
    with Lent(stream) as lent:
        whole = view_of(stream)
        at, number = 0, 1
        while at < lent.size:
            try:
                taken = measured(lent, at, words)
            except Error as error:
                raise error.at(number, at) from None
            yield whole[at:at + taken]
            at += taken
            number += 1


class Pieces:
    """A file that is read piece by piece, as far as needed."""

    def __init__(self, file: Any) -> None:
        # returns what is there, and no more, if the file has a buffer
        self._read = getattr(file, 'read1', None) or file.read

    def next(self, size: int) -> bytes:
        """At most `size` bytes; none at the end of the file."""
        piece: Optional[bytes] = self._read(size)
        if piece is None:
            raise BlockingIOError('the file has no bytes now, and does not wait for them')
        if isinstance(piece, str):
            raise TypeError('the file is open for text: frames are bytes')
        return piece

    def all(self) -> Iterator[bytes]:
        """The rest of the file, piece by piece."""
        while True:
            piece = self.next(PIECE)
            if not piece:
                return
            yield piece


class Framed:
    """The frames of a stream whose bytes come piece by piece."""

    def __init__(self, words: int) -> None:
        self._words = words
        # the bytes that aren't part of a frame yet, how many there are, and how many there must be for more to be known
        self._held: List[bytes] = []
        self._size, self._wanted = 0, 1
        self._at, self._number = 0, 1

    @property
    def room(self) -> int:
        """How many bytes to request next."""
        return min(max(PIECE, self._wanted - self._size), _MOST)

    def frames(self, piece: bytes) -> Iterator[memoryview]:
        """The frames that are whole with these bytes. If there are none, the stream has ended."""
        self._held.append(piece)
        self._size += len(piece)
        if piece and self._size < self._wanted:
            return
        held = b''.join(self._held)
        start = 0
        with Lent(held) as lent:
            while start < lent.size:
                try:
                    taken = measured(lent, start, self._words)
                except Error as error:
                    # at the end of the stream, the last bytes may tell more than that they are too few
                    if error.number == Refusal.TRUNCATED and piece:
                        break
                    raise error.at(self._number, self._at) from None
                yield memoryview(held[start:start + taken])
                start += taken
                self._at += taken
                self._number += 1
        held = held[start:]
        self._held, self._size = [held], len(held)
        self._wanted = max(bytes_wanted(held), len(held) + 1) if held else 1


def _frames_of_file(file: Any, words: int) -> Iterator[memoryview]:
    pieces, framed = Pieces(file), Framed(words)
    piece = b'.'
    while piece:
        piece = pieces.next(framed.room)
        yield from framed.frames(piece)
